//! Small rings with every schedule, every age and all sixteen settings, on the library's own answers.

mod answer;
mod failed;
mod reads;
mod rings;
mod tree;

use crate::file::{RunFile, MOST_ORDERS};
use crate::found::{ending, hex, save, DIFFERENT};
use crate::pool;
use crate::print::play;
use crate::shared::{Plain, Shared};
use rings::{tasks, RINGS};
use std::cell::UnsafeCell;
use std::io::{self, Write};
use std::path::PathBuf;
use std::sync::atomic::{AtomicBool, AtomicUsize, Ordering};
use tree::{Looked, Tree, Wrong};

pub struct Explore {
    /// Whether longer lists are taken too.
    pub more: bool,
    pub jobs: u64,
    pub progress: bool,
    /// Where a file with something wrong is saved.
    pub save: PathBuf,
}

/// What the processes have in common.
#[repr(C)]
struct Common {
    next: AtomicUsize,
    stop: AtomicBool,
}

/// Longer than every file that is explored.
const MOST_FILE: usize = 1_024;

/// What one process does, for the one that waits for it.
#[repr(C)]
struct Job {
    /// The file that the library is called with.
    length: AtomicUsize,
    file: UnsafeCell<[u8; MOST_FILE]>,
    /// By ring and setting. Read only once the process has ended, as the file is.
    looked: UnsafeCell<[[Looked; 16]; RINGS.len()]>,
}

// SAFETY: atomics and plain numbers, for which zeros are a value.
unsafe impl Plain for Common {}
unsafe impl Plain for Job {}

impl Job {
    /// Keeps a file, for the case that the call does not come back.
    fn note(&self, file: &[u8]) {
        // SAFETY: only this process looks at the file while it runs.
        unsafe { (&mut *self.file.get())[..file.len()].copy_from_slice(file) };
        self.length.store(file.len(), Ordering::Relaxed);
    }

    /// The file kept last, once the process has ended.
    fn noted(&self) -> &[u8] {
        // SAFETY: its process has ended.
        unsafe { &(&*self.file.get())[..self.length.load(Ordering::Relaxed)] }
    }

    fn add(&self, ring: usize, orders: u8, more: Looked) {
        // SAFETY: as for the file.
        let looked = unsafe { &mut (&mut *self.looked.get())[ring][usize::from(orders)] };
        looked.add(&more);
    }

    fn looked(&self) -> &[[Looked; 16]; RINGS.len()] {
        // SAFETY: its process has ended.
        unsafe { &*self.looked.get() }
    }
}

/// One process's work: trees until none is left.
fn work(tasks: &[(usize, RunFile)], common: &Common, job: &Job) -> u8 {
    loop {
        let task = common.next.fetch_add(1, Ordering::Relaxed);
        if task >= tasks.len() || common.stop.load(Ordering::Relaxed) {
            return 0;
        }
        let (ring, file) = &tasks[task];
        let note = |bytes: &[u8]| job.note(bytes);
        let mut tree = Tree::new(file, &note);
        if let Err(Wrong { why, file }) = tree.grow() {
            job.note(&file);
            println!("{why}");
            let _ = io::stdout().flush();
            return DIFFERENT;
        }
        job.add(*ring, file.orders, tree.looked);
    }
}

/// A sentence for each ring and weaker setting of which no run raced, or none had a store hidden by coherence alone. That strong
/// ones have neither is asked of every answer.
fn never_seen(looked: &[[Looked; 16]; RINGS.len()]) -> Vec<String> {
    let mut missing = Vec::new();
    for ((m, modulus), settings) in RINGS.iter().zip(looked) {
        for (orders, looked) in settings.iter().enumerate().take(usize::from(MOST_ORDERS)) {
            for (seen, what) in [
                (looked.races, "no run races"),
                (looked.coherence, "no store is hidden by coherence alone"),
            ] {
                if seen == 0 {
                    missing.push(format!("m={m} M={modulus}, order bits {orders}: {what}"));
                }
            }
        }
    }
    missing
}

fn print(looked: &[[Looked; 16]; RINGS.len()]) {
    let mut all = Looked::default();
    for ((m, modulus), settings) in RINGS.iter().zip(looked) {
        let mut ring = Looked::default();
        settings.iter().for_each(|looked| ring.add(looked));
        println!("m={m} M={modulus}: {ring}");
        all.add(&ring);
    }
    for orders in 0..16 {
        let mut setting = Looked::default();
        looked.iter().for_each(|ring| setting.add(&ring[orders]));
        println!("order bits {orders}: {setting}");
    }
    println!("in all: {all}");
}

impl Explore {
    fn show(&self, file: &[u8]) -> io::Result<()> {
        println!("file: {}", hex(file));
        println!("here:\n{}", play(file).text());
        save(&self.save, "explored.run", file)
    }

    /// True where every answer was as promised and as the peer has it, and each weaker setting showed what it lacks.
    pub fn all(&self) -> io::Result<bool> {
        let tasks = tasks(self.more);
        let common = Shared::<Common>::new()?;
        let jobs = (0..self.jobs)
            .map(|_| Shared::<Job>::new())
            .collect::<io::Result<Vec<_>>>()?;
        let mut shown = 0;
        let bad = pool::run(
            jobs.len(),
            &common.stop,
            |job| work(&tasks, &common, &jobs[job]),
            || {
                let begun = common.next.load(Ordering::Relaxed).min(tasks.len());
                if self.progress && begun >= shown + 16 {
                    shown = begun;
                    eprintln!("{begun} of {} trees", tasks.len());
                }
            },
        )?;
        if let Some((job, end)) = bad {
            println!("exploring: {}", ending(end));
            self.show(jobs[job].noted())?;
            return Ok(false);
        }
        let mut looked = [[Looked::default(); 16]; RINGS.len()];
        for job in &jobs {
            for (to, more) in looked
                .iter_mut()
                .flatten()
                .zip(job.looked().iter().flatten())
            {
                to.add(more);
            }
        }
        print(&looked);
        let missing = never_seen(&looked);
        missing.iter().for_each(|sentence| println!("{sentence}"));
        Ok(missing.is_empty())
    }
}

#[cfg(test)]
mod tests {
    use super::*;

    #[test]
    fn a_weaker_setting_that_showed_nothing_is_named() {
        let seen = Looked {
            races: 1,
            coherence: 1,
            ..Looked::default()
        };
        let mut looked = [[seen; 16]; RINGS.len()];
        looked[2][15] = Looked::default();
        assert!(never_seen(&looked).is_empty());
        looked[2][14].races = 0;
        looked[3][0].coherence = 0;
        let expected = [
            "m=2 M=4, order bits 14: no run races",
            "m=2 M=6, order bits 0: no store is hidden by coherence alone",
        ];
        assert_eq!(never_seen(&looked), expected);
    }
}
