//! Plays made files here and by another program, and compares what is printed.

use crate::make::make;
use crate::print::{play, Played};
use crate::smaller::smaller;
use crate::tally::Tally;
use std::io::{Error, ErrorKind, Write};
use std::path::{Path, PathBuf};
use std::process::{Command, Output, Stdio};
use std::sync::atomic::{AtomicBool, AtomicU64, Ordering};
use std::sync::Mutex;

pub struct Compare {
    pub seed: u64,
    pub count: u64,
    /// How many files are played at a time.
    pub jobs: u64,
    pub progress: bool,
    /// Where a file with a difference is saved.
    pub save: PathBuf,
    /// How many files the program is given at a time, by name; without it one, on its standard input.
    pub lot: Option<u64>,
    /// The other program and its words.
    pub program: Vec<String>,
}

/// Most runs spent on making a file smaller.
const SMALLER_TRIES: u32 = 2_000;

/// What a program printed; an error if a signal ended it.
fn printed(output: Output) -> std::io::Result<Vec<u8>> {
    match output.status.code() {
        Some(_) => Ok(output.stdout),
        None => Err(Error::new(ErrorKind::Other, "ended by a signal")),
    }
}

/// Writes files into a new folder, under names that tell their order.
fn write_all(folder: &Path, files: &[&[u8]]) -> std::io::Result<Vec<PathBuf>> {
    std::fs::create_dir_all(folder)?;
    let write = |(place, file): (usize, &&[u8])| {
        let path = folder.join(format!("{place}.run"));
        std::fs::write(&path, file).map(|()| path)
    };
    files.iter().enumerate().map(write).collect()
}

impl Compare {
    fn command(&self) -> Command {
        let mut command = Command::new(&self.program[0]);
        command.args(&self.program[1..]);
        command
    }

    /// What the other program prints for a file on its standard input.
    fn from_input(&self, file: &[u8]) -> std::io::Result<Vec<u8>> {
        let mut child = self
            .command()
            .stdin(Stdio::piped())
            .stdout(Stdio::piped())
            .spawn()?;
        // A program that stops reading early has still to print the right code.
        let _ = child.stdin.take().map(|mut input| input.write_all(file));
        printed(child.wait_with_output()?)
    }

    /// What it prints for files that it is given by name, from a folder that is there as long as this takes. What it tells of refused files is dropped.
    fn from_names(&self, lot: u64, files: &[&[u8]]) -> std::io::Result<Vec<u8>> {
        let folder = self.save.join(format!("lot-{lot}"));
        let paths = write_all(&folder, files)?;
        let output = self.command().args(paths).stderr(Stdio::null()).output();
        std::fs::remove_dir_all(&folder)?;
        printed(output?)
    }

    /// What the other program prints for the files of a lot, one after the other.
    fn other(&self, lot: u64, files: &[&[u8]]) -> std::io::Result<Vec<u8>> {
        match self.lot {
            Some(_) => self.from_names(lot, files),
            None => self.from_input(files[0]),
        }
    }

    /// Whether it prints something else for a file alone.
    fn differs(&self, lot: u64, file: &[u8]) -> bool {
        self.other(lot, &[file])
            .map_or(true, |printed| printed != play(file).text().as_bytes())
    }

    /// Shows the first file of a lot for which the other program prints something else.
    fn show_first(&self, lot: u64, files: Vec<Vec<u8>>) {
        let first = files.iter().position(|file| self.differs(lot, file));
        match first.and_then(|place| Some((place, files.into_iter().nth(place)?))) {
            Some((place, file)) => self.show_difference(lot, lot + place as u64, file),
            None => println!(
                "difference in the files from {lot} on, together, and in none of them alone"
            ),
        }
    }

    fn show_difference(&self, lot: u64, number: u64, file: Vec<u8>) {
        let file = smaller(file, SMALLER_TRIES, |less| self.differs(lot, less));
        let name = format!("difference-{}-{number}.run", self.seed);
        let path = self.save.join(name);
        let hex: Vec<String> = file.iter().map(|byte| format!("{byte:02X}")).collect();
        println!("difference in file {number}: {}", hex.join(" "));
        println!("here:\n{}", play(&file).text());
        match self.other(lot, &[&file]) {
            Ok(printed) => println!("there:\n{}", String::from_utf8_lossy(&printed)),
            Err(error) => println!("there: {error}"),
        }
        match std::fs::create_dir_all(&self.save).and_then(|()| std::fs::write(&path, &file)) {
            Ok(()) => println!("saved as {}", path.display()),
            Err(error) => println!("{} not saved: {error}", path.display()),
        }
    }

    /// True where every file was printed alike.
    pub fn all(&self) -> bool {
        let (next, alike) = (AtomicU64::new(0), AtomicBool::new(true));
        let tally = Mutex::new(Tally::new());
        let size = self.lot.unwrap_or(1);
        std::thread::scope(|scope| {
            for _ in 0..self.jobs {
                scope.spawn(|| loop {
                    let lot = next.fetch_add(size, Ordering::Relaxed);
                    if lot >= self.count || !alike.load(Ordering::Relaxed) {
                        break;
                    }
                    let numbers = lot..self.count.min(lot + size);
                    let files: Vec<Vec<u8>> = numbers.map(|k| make(self.seed, k)).collect();
                    let played: Vec<Played> = files.iter().map(|file| play(file)).collect();
                    let texts: String = played.iter().map(Played::text).collect();
                    let lent: Vec<&[u8]> = files.iter().map(Vec::as_slice).collect();
                    let same = self.other(lot, &lent).ok() == Some(texts.into_bytes());
                    let mut tally = tally.lock().unwrap();
                    for (file, played) in files.iter().zip(&played) {
                        tally.count(file, played, &[played.code]);
                        if self.progress && tally.files % 100 == 0 {
                            eprintln!("{} of {}", tally.files, self.count);
                        }
                    }
                    if !same && alike.swap(false, Ordering::Relaxed) {
                        self.show_first(lot, files);
                    }
                });
            }
        });
        print!("{}", tally.lock().unwrap());
        alike.into_inner()
    }
}
