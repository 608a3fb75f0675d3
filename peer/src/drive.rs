//! Made files through the library's C entries, each with four lendings of its buffers and once asked only whether it races, in processes beside one
//! another.

use crate::desk::{differs, race_differs, Desk};
use crate::file::read;
use crate::floors::{impossible, missed};
use crate::found;
use crate::lend::{lendings, needs, Lending};
use crate::make::make;
use crate::pool;
use crate::print::play;
use crate::random::Random;
use crate::shared::{Plain, Shared};
use crate::system::End;
use crate::tally::{Tally, REPORTS};
use std::cell::UnsafeCell;
use std::io;
use std::path::PathBuf;
use std::sync::atomic::{AtomicBool, AtomicU64, Ordering};
use std::time::{Duration, Instant};

pub struct Drive {
    pub seed: u64,
    pub count: u64,
    /// Processes at a time.
    pub jobs: u64,
    /// Whether the floors must be met.
    pub floors: bool,
    pub progress: bool,
    /// Where a file with a difference is saved.
    pub save: PathBuf,
}

/// How often progress is shown.
const PROGRESS: Duration = Duration::from_secs(2);

/// What the processes have in common.
#[repr(C)]
struct Common {
    /// The next file's number.
    next: AtomicU64,
    stop: AtomicBool,
}

/// What one process does, for the one that waits for it.
#[repr(C)]
struct Job {
    number: AtomicU64,
    call: AtomicU64,
    files: AtomicU64,
    /// Read only once the process has ended.
    tally: UnsafeCell<Tally>,
}

// SAFETY: atomics and plain numbers, for which zeros are a value.
unsafe impl Plain for Common {}
unsafe impl Plain for Job {}

/// The number of the call that asks only whether the file races: it comes after the four.
const RACE_CALL: u64 = 4;

/// Whether that call lends an empty file as a null pointer: as the first of the four does.
fn race_null(lendings: &[Lending; 4]) -> bool {
    lendings[0].null
}

/// The four lendings of a file: drawn apart from the file itself, so that `make` alone gives the file back.
fn lendings_of(seed: u64, number: u64) -> [Lending; 4] {
    lendings(&mut Random::new(!seed, number))
}

/// Counts what was lent in one call and answers the code.
fn count_call(tally: &mut Tally, file: &[u8], lending: &Lending) -> u8 {
    let needs = needs(file);
    let lent = lending.lent(needs);
    let lengths = [lent.marks, lent.out, lent.report];
    tally.calls += 1;
    if lengths.contains(&0) {
        tally.empty[usize::from(lending.null)] += 1;
    }
    let code = read(file, lent).err().unwrap_or(0);
    if matches!(code, 0 | 9..) {
        let short = |buffer: usize| usize::from(lengths[buffer] < needs[buffer]) << buffer;
        tally.short[short(0) + short(1) + short(2)] += 1;
    }
    if matches!(code, 0 | 11) {
        for (calls, length) in tally.reports.iter_mut().zip(REPORTS) {
            *calls += u64::from(lent.report == length);
        }
    }
    code
}

/// How many files have been found right so far.
fn compared(jobs: &[Shared<Job>]) -> u64 {
    jobs.iter()
        .map(|job| job.files.load(Ordering::Relaxed))
        .sum()
}

impl Drive {
    /// One file: true where all five answers are the same.
    fn one(&self, number: u64, desk: &mut Desk, job: &Job, tally: &mut Tally) -> bool {
        let file = make(self.seed, number);
        let played = play(&file);
        let lendings = lendings_of(self.seed, number);
        for (call, lending) in lendings.iter().enumerate() {
            job.call.store(call as u64, Ordering::Relaxed);
            if differs(desk, &file, &played, lending).is_some() {
                return false;
            }
        }
        job.call.store(RACE_CALL, Ordering::Relaxed);
        if race_differs(desk, &file, &played, race_null(&lendings)).is_some() {
            return false;
        }
        tally.race.count(&file, &played);
        let codes = lendings.map(|lending| count_call(tally, &file, &lending));
        tally.count(&file, &played, &codes);
        true
    }

    /// One process's work: files until none is left.
    fn work(&self, common: &Common, job: &Job) -> u8 {
        let mut desk = Desk::new().expect("memory for the buffers");
        // SAFETY: only this process looks at the tally while it runs.
        let tally = unsafe { &mut *job.tally.get() };
        loop {
            let number = common.next.fetch_add(1, Ordering::Relaxed);
            if number >= self.count || common.stop.load(Ordering::Relaxed) {
                return 0;
            }
            job.number.store(number, Ordering::Relaxed);
            job.call.store(0, Ordering::Relaxed);
            if !self.one(number, &mut desk, job, tally) {
                return found::DIFFERENT;
            }
            job.files.fetch_add(1, Ordering::Relaxed);
        }
    }

    fn show_progress(&self, jobs: &[Shared<Job>], began: Instant) {
        let files = compared(jobs);
        let seconds = began.elapsed().as_secs();
        eprintln!("{files} of {} files, {seconds} s", self.count);
    }

    fn show(&self, job: &Job, end: End, right: u64) -> io::Result<()> {
        let number = job.number.load(Ordering::Relaxed);
        let call = job.call.load(Ordering::Relaxed);
        let (seed, ending) = (self.seed, found::ending(end));
        println!("seed {seed}, file {number}, call {call}, after {right} files that were right: {ending}");
        if !matches!(end, End::Exit(found::DIFFERENT) | End::Signal(_)) {
            println!("the comparison itself has failed, not the library");
            return Ok(());
        }
        let lendings = lendings_of(self.seed, number);
        let name = format!("{}-{number}", self.seed);
        let file = make(self.seed, number);
        if call == RACE_CALL {
            return found::show_race(&name, file, race_null(&lendings), &self.save);
        }
        found::show(&name, file, &lendings[call as usize], &self.save)
    }

    /// True where every answer was the same and no floor was missed.
    pub fn all(&self) -> io::Result<bool> {
        let common = Shared::<Common>::new()?;
        let jobs = (0..self.jobs)
            .map(|_| Shared::<Job>::new())
            .collect::<io::Result<Vec<_>>>()?;
        let began = Instant::now();
        let mut shown = began;
        let bad = pool::run(
            jobs.len(),
            &common.stop,
            |job| self.work(&common, &jobs[job]),
            || {
                if self.progress && shown.elapsed() >= PROGRESS {
                    shown = Instant::now();
                    self.show_progress(&jobs, began);
                }
            },
        )?;
        if let Some((job, end)) = bad {
            self.show(&jobs[job], end, compared(&jobs))?;
            return Ok(false);
        }
        let mut tally = Tally::new();
        for job in &jobs {
            // SAFETY: its process has ended.
            tally.add(unsafe { &*job.tally.get() });
        }
        print!("{tally}");
        Ok(!self.floors || self.floors_met(&tally))
    }

    fn floors_met(&self, tally: &Tally) -> bool {
        let (floors, missed) = missed(tally);
        for sentence in &missed {
            println!("floor missed: {sentence}");
        }
        println!("{} of {floors} floors met", floors - missed.len());
        let impossible = impossible(tally);
        impossible
            .iter()
            .for_each(|sentence| println!("{sentence}"));
        missed.is_empty() && impossible.is_empty()
    }
}
