//! A second implementation of the two-core ring machine, to hold `runlist` against.

mod actions;
mod call;
mod compare;
mod file;
mod machine;
mod make;
mod print;
mod random;
mod smaller;
mod tally;

// What calls the library's C entry.
#[cfg(feature = "library")]
mod desk;
#[cfg(feature = "library")]
mod drive;
#[cfg(feature = "library")]
mod explore;
#[cfg(feature = "library")]
mod floors;
#[cfg(feature = "library")]
mod found;
#[cfg(feature = "library")]
mod lend;
#[cfg(feature = "library")]
mod library;
#[cfg(feature = "library")]
mod pool;
#[cfg(feature = "library")]
mod race;
#[cfg(feature = "library")]
mod shared;
#[cfg(feature = "library")]
mod system;

use std::io::{Read, Write};
use std::path::PathBuf;
use std::process::ExitCode;

const USAGE: &str = "usage: peer run <FILE
       peer make --seed S --number K >FILE
       peer compare --seed S --count N [--jobs J] [--lot L] [--progress] [--save FOLDER] --program CMD...
built with the library:
       peer drive --seed S --count N [--jobs J] [--floors] [--progress] [--save FOLDER]
       peer explore [--more] [--jobs J] [--progress] [--save FOLDER]";

/// The word that follows a word such as `--seed`.
fn word<'w>(words: &'w [String], name: &str) -> Option<&'w String> {
    let at = words.iter().position(|word| word == name)?;
    words.get(at + 1)
}

fn number(words: &[String], name: &str) -> Option<u64> {
    word(words, name)?.parse().ok()
}

fn jobs(words: &[String]) -> u64 {
    number(words, "--jobs").unwrap_or(1).max(1)
}

/// Whether standard error is a terminal.
fn on_terminal() -> bool {
    extern "C" {
        fn isatty(file: i32) -> i32;
    }
    // SAFETY: it only looks at the number of an open file.
    unsafe { isatty(2) == 1 }
}

/// Whether progress is shown: where it is asked for, or somebody may be watching.
fn progress(words: &[String]) -> bool {
    words.iter().any(|word| word == "--progress") || on_terminal()
}

/// Whether a word such as `--floors` is there.
#[cfg(feature = "library")]
fn flag(words: &[String], name: &str) -> bool {
    words.iter().any(|word| word == name)
}

/// Where a file with a difference is saved.
fn save(words: &[String]) -> PathBuf {
    word(words, "--save").map_or_else(|| "target/differences".into(), PathBuf::from)
}

fn verdict(good: bool) -> ExitCode {
    if good {
        ExitCode::SUCCESS
    } else {
        ExitCode::FAILURE
    }
}

fn run() -> std::io::Result<ExitCode> {
    let mut file = Vec::new();
    std::io::stdin().read_to_end(&mut file)?;
    std::io::stdout().write_all(print::play(&file).text().as_bytes())?;
    Ok(ExitCode::SUCCESS)
}

fn make_one(words: &[String]) -> Option<std::io::Result<ExitCode>> {
    let file = make::make(number(words, "--seed")?, number(words, "--number")?);
    Some(
        std::io::stdout()
            .write_all(&file)
            .map(|()| ExitCode::SUCCESS),
    )
}

fn compare(words: &[String]) -> Option<std::io::Result<ExitCode>> {
    let at = words.iter().position(|word| word == "--program")?;
    let (words, program) = (&words[..at], words[at + 1..].to_vec());
    if program.is_empty() {
        return None;
    }
    let compare = compare::Compare {
        seed: number(words, "--seed")?,
        count: number(words, "--count")?,
        jobs: jobs(words),
        progress: progress(words),
        save: save(words),
        lot: number(words, "--lot").map(|lot| lot.max(1)),
        program,
    };
    Some(Ok(verdict(compare.all())))
}

#[cfg(feature = "library")]
fn drive(words: &[String]) -> Option<std::io::Result<ExitCode>> {
    let drive = drive::Drive {
        seed: number(words, "--seed")?,
        count: number(words, "--count")?,
        jobs: jobs(words),
        floors: flag(words, "--floors"),
        progress: progress(words),
        save: save(words),
    };
    Some(drive.all().map(verdict))
}

#[cfg(feature = "library")]
fn explore(words: &[String]) -> Option<std::io::Result<ExitCode>> {
    let explore = explore::Explore {
        more: flag(words, "--more"),
        jobs: jobs(words),
        progress: progress(words),
        save: save(words),
    };
    Some(explore.all().map(verdict))
}

fn main() -> std::io::Result<ExitCode> {
    let words: Vec<String> = std::env::args().skip(1).collect();
    let done = match words.first().map(String::as_str) {
        Some("run") => Some(run()),
        Some("make") => make_one(&words),
        Some("compare") => compare(&words),
        #[cfg(feature = "library")]
        Some("drive") => drive(&words),
        #[cfg(feature = "library")]
        Some("explore") => explore(&words),
        _ => None,
    };
    done.unwrap_or_else(|| {
        eprintln!("{USAGE}");
        Ok(ExitCode::from(2))
    })
}
