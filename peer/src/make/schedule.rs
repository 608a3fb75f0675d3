//! Schedules that are mostly sensible: batches complete, ages are used where they may be.

use crate::file::{Entry, RunFile};
use crate::machine::{Machine, Next, CONSUMER, PRODUCER};
use crate::random::Random;

/// How one schedule behaves, in times of a hundred.
struct Manner {
    /// Going on with the core that moved last.
    stay: u32,
    /// An age other than 0 at a foreign load.
    stale: u32,
    /// An age where none is used.
    stray: u32,
    /// A core byte that names no core.
    no_core: u32,
    /// Letting the other core move where a batch would fail.
    patient: u32,
}

fn manner(random: &mut Random) -> Manner {
    Manner {
        stay: random.pick(&[0, 30, 50, 70, 90, 97, 100]),
        stale: random.pick(&[0, 5, 20, 50, 80]),
        stray: random.pick(&[0, 0, 1, 3, 20]),
        no_core: random.pick(&[0, 0, 1, 3]),
        patient: random.pick(&[0, 50, 90, 98]),
    }
}

/// An age: small, or any, or that of the initial store or one beside it, or the greatest.
fn age(random: &mut Random, stores: usize) -> u8 {
    let initial = stores as u32 - 1;
    match random.range(0, 9) {
        0..=4 => random.range(1, 3) as u8,
        5..=6 => random.range(0, initial) as u8,
        7..=8 => (initial + random.range(0, 2)).saturating_sub(1).min(255) as u8,
        _ => 255,
    }
}

/// Entries that bring the run about as far as it goes, or stop on the way.
pub fn make(random: &mut Random, file: &RunFile, most: usize) -> Vec<Entry> {
    let manner = manner(random);
    let most = most.min(if random.percent(2) { most } else { 3_000 });
    let wanted = if random.percent(20) {
        random.range(0, most as u32) as usize
    } else {
        most
    };
    let mut machine = Machine::new(file);
    let mut entries = Vec::new();
    let mut core = random.range(0, 1) as usize;
    // Entries still to come once nothing can move any more.
    let mut after = random.range(0, 6);
    while entries.len() < wanted {
        let done = [PRODUCER, CONSUMER].map(|core| machine.next(core).is_none());
        if machine.halted() || done == [true, true] {
            if after == 0 {
                break;
            }
            after -= 1;
        }
        if !random.percent(manner.stay) || (done[core] && random.percent(80)) {
            core = 1 - core;
        }
        let loads_foreign = machine.next(core) == Some(Next::ForeignLoad);
        let aged = random.percent(if loads_foreign {
            manner.stale
        } else {
            manner.stray
        });
        let age = if aged {
            age(random, machine.foreign_stores(core))
        } else {
            0
        };
        let mut entry = Entry {
            core: core as u8,
            age,
        };
        // Once halted, often: which refusal comes first.
        if random.percent(if machine.halted() { 20 } else { manner.no_core }) {
            entry.core = random.pick(&[2, 2, 3, 128, 254, 255]);
        } else if loads_foreign
            && !done[1 - core]
            && random.percent(manner.patient)
            && machine.would_fail(core, age)
        {
            core = 1 - core;
            entry = Entry {
                core: core as u8,
                age: 0,
            };
        }
        machine.play(entry);
        entries.push(entry);
    }
    entries
}
