//! A file on which the library's answer is another, or on which it ended by a signal: made small, shown and saved.

use crate::desk::{race_differs, Desk, Expected, CALL_SECONDS};
use crate::lend::{needs, Lending};
use crate::print::{numbers, play, Played};
use crate::race::Race;
use crate::smaller::smaller;
use crate::system::{start, End, ALARM};
use std::io::{self, Write};
use std::path::Path;

/// Most calls spent on making a file smaller.
const SMALLER_TRIES: u32 = 4_000;

/// Exit status of a call's own process where the answer was another.
pub const DIFFERENT: u8 = 1;

/// Calls the library in a process of its own; with `tell`, that process prints what was answered.
fn apart(file: &[u8], lending: &Lending, tell: bool) -> io::Result<End> {
    start(|| {
        let mut desk = Desk::new().expect("memory for the buffers");
        let lent = lending.lent(needs(file));
        let there = desk.call(file, lending, lent);
        let expected = Expected::new(file, &play(file), lent);
        let difference = expected.difference(file, lending, &there);
        if tell {
            let start = |buffer: usize| {
                let bytes = there.buffer(buffer);
                bytes[..expected.written[buffer].len().min(bytes.len())].to_vec()
            };
            let answered = Played {
                code: there.code as u8,
                marks: start(0),
                out: start(1),
                numbers: numbers(&start(2)),
                ..Played::default()
            };
            println!("there:\n{}", answered.text());
            println!("different: {}", difference.as_deref().unwrap_or("nothing"));
            let _ = io::stdout().flush();
        }
        u8::from(difference.is_some()) * DIFFERENT
    })?
    .wait()
}

/// How a call's process ended, in words.
pub fn ending(end: End) -> String {
    match end {
        End::Exit(0) => "the same answer".to_string(),
        End::Exit(DIFFERENT) => "another answer".to_string(),
        End::Exit(status) => format!("exit status {status}"),
        End::Signal(ALARM) => format!("no answer within {CALL_SECONDS} seconds"),
        End::Signal(signal) => format!("ended by signal {signal}"),
    }
}

pub fn save(folder: &Path, name: &str, file: &[u8]) -> io::Result<()> {
    std::fs::create_dir_all(folder)?;
    let path = folder.join(name);
    std::fs::write(&path, file)?;
    println!("saved as {}", path.display());
    Ok(())
}

pub fn hex(file: &[u8]) -> String {
    let bytes: Vec<String> = file.iter().map(|byte| format!("{byte:02X}")).collect();
    bytes.join(" ")
}

/// Saves the file as it is, makes it small, shows both answers, and saves the small one.
pub fn show(name: &str, file: Vec<u8>, lending: &Lending, folder: &Path) -> io::Result<()> {
    save(folder, &format!("difference-{name}-whole.run"), &file)?;
    let stays = |less: &[u8]| !matches!(apart(less, lending, false), Ok(End::Exit(0)));
    let file = smaller(file, SMALLER_TRIES, stays);
    println!("made small: {}", hex(&file));
    println!("buffers: {lending}");
    let lent = lending.lent(needs(&file));
    let expected = Expected::new(&file, &play(&file), lent);
    println!(
        "their lengths: marks {}, out {}, report {}; so the code is {}",
        lent.marks, lent.out, lent.report, expected.code
    );
    println!("with buffers long enough, here:\n{}", play(&file).text());
    let end = apart(&file, lending, true)?;
    println!("the call: {}", ending(end));
    save(folder, &format!("difference-{name}.run"), &file)
}

/// Asks the library in a process of its own only whether the file races; with `tell`, that process prints in what the answer is another.
fn race_apart(file: &[u8], null: bool, tell: bool) -> io::Result<End> {
    start(|| {
        let mut desk = Desk::new().expect("memory for the file");
        let difference = race_differs(&mut desk, file, &play(file), null);
        if tell {
            println!("different: {}", difference.as_deref().unwrap_or("nothing"));
            let _ = io::stdout().flush();
        }
        u8::from(difference.is_some()) * DIFFERENT
    })?
    .wait()
}

/// The same as `show`, for the question that asks only whether the file races.
pub fn show_race(name: &str, file: Vec<u8>, null: bool, folder: &Path) -> io::Result<()> {
    save(folder, &format!("difference-{name}-whole.run"), &file)?;
    let stays = |less: &[u8]| !matches!(race_apart(less, null, false), Ok(End::Exit(0)));
    let file = smaller(file, SMALLER_TRIES, stays);
    println!("made small: {}", hex(&file));
    let played = play(&file);
    println!(
        "asked only whether it races, here: {}\n{}",
        Race::of(&played),
        played.text()
    );
    let end = race_apart(&file, null, true)?;
    println!("the call: {}", ending(end));
    save(folder, &format!("difference-{name}.run"), &file)
}
