//! Work done by several processes beside one another, and what became of them.

use crate::system::{start, Child, End};
use std::io;
use std::sync::atomic::{AtomicBool, Ordering};
use std::time::Duration;

/// How often the processes are looked at.
const LOOK: Duration = Duration::from_millis(20);

/// Starts this many processes, each with its number, and waits for all. The first that does not end with status 0
/// makes `stop` true, and is the answer. `watch` is called now and then.
pub fn run(
    jobs: usize,
    stop: &AtomicBool,
    work: impl Fn(usize) -> u8,
    mut watch: impl FnMut(),
) -> io::Result<Option<(usize, End)>> {
    let mut running: Vec<(usize, Child)> = Vec::new();
    for job in 0..jobs {
        running.push((job, start(|| work(job))?));
    }
    let mut bad = None;
    while !running.is_empty() {
        let mut still = Vec::new();
        for (job, child) in running {
            match child.look()? {
                None => still.push((job, child)),
                Some(End::Exit(0)) => {}
                Some(end) => {
                    stop.store(true, Ordering::Relaxed);
                    bad = bad.or(Some((job, end)));
                }
            }
        }
        running = still;
        watch();
        std::thread::sleep(LOOK);
    }
    Ok(bad)
}
