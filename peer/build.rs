//! With the feature `library`: links libferrulique.a, from the folder that FERRULIQUE_LIBRARY names or from where `./build` puts it.
//! Where that folder has a libferrulique.so instead, the library is found when the program starts.

use std::env::var;
use std::path::Path;

fn main() {
    println!("cargo:rerun-if-env-changed=FERRULIQUE_LIBRARY");
    if var("CARGO_FEATURE_LIBRARY").is_err() {
        return;
    }
    let folder = var("FERRULIQUE_LIBRARY")
        .unwrap_or_else(|_| concat!(env!("CARGO_MANIFEST_DIR"), "/../target/lib").to_string());
    let (kind, name) = [("static", "libferrulique.a"), ("dylib", "libferrulique.so")]
        .into_iter()
        .find(|(_, name)| Path::new(&folder).join(name).is_file())
        .unwrap_or_else(|| {
            eprintln!("no libferrulique.a in {folder}: `./build` makes it");
            std::process::exit(1)
        });
    println!("cargo:rerun-if-changed={folder}/{name}");
    println!("cargo:rustc-link-search=native={folder}");
    println!("cargo:rustc-link-lib={kind}=ferrulique");
}
