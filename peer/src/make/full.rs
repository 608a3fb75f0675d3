//! Files in which one core completes 255 batches, so that the other's foreign loads can reach back to age 255.

use super::lawful;
use crate::file::{Entry, RunFile};
use crate::machine::{Machine, Next, PRODUCER};
use crate::random::Random;

const MOST_BATCHES: usize = 255;

/// Batches that all fit at once: empty ones and, for the producer, a few bytes that fill the ring at most.
fn storing(random: &mut Random, core: usize, m: u32) -> Vec<u8> {
    let mut sizes = vec![0; MOST_BATCHES];
    if core == PRODUCER {
        for _ in 0..random.range(0, m.min(4)) {
            sizes[random.range(0, MOST_BATCHES as u32 - 1) as usize] = 1;
        }
    }
    sizes
}

/// Batches that never fit, so that each makes a foreign load; sometimes as many as there can be.
fn loading(random: &mut Random, m: u32) -> Vec<u8> {
    let count = random.pick(&[2, 5, MOST_BATCHES]);
    vec![(m + 1) as u8; count]
}

fn age(random: &mut Random) -> u8 {
    match random.range(0, 5) {
        0..=3 => 255,
        4 => random.pick(&[0, 253, 254]),
        _ => random.byte(),
    }
}

/// Plays one entry of a core; the age is for a foreign load alone.
fn play(machine: &mut Machine, entries: &mut Vec<Entry>, core: usize, age: u8) {
    let loads_foreign = machine.next(core) == Some(Next::ForeignLoad);
    let entry = Entry {
        core: core as u8,
        age: if loads_foreign { age } else { 0 },
    };
    machine.play(entry);
    entries.push(entry);
}

fn schedule(random: &mut Random, file: &RunFile, storer: usize) -> Vec<Entry> {
    let mut machine = Machine::new(file);
    let mut entries = Vec::new();
    // How often, in a hundred, the loading core moves before the other has done.
    let early = random.pick(&[0, 0, 0, 1, 5]);
    while machine.next(storer).is_some() && !machine.halted() {
        if random.percent(early) {
            let age = random.range(0, 3) as u8;
            play(&mut machine, &mut entries, 1 - storer, age);
        }
        play(&mut machine, &mut entries, storer, 0);
    }
    // Own loads and foreign loads; a refused one is tried again, with another age.
    for _ in 0..random.range(2, 12) {
        play(&mut machine, &mut entries, 1 - storer, age(random));
    }
    entries
}

pub fn make(random: &mut Random) -> RunFile {
    let (m, modulus) = lawful::ring(random);
    let storer = random.range(0, 1) as usize;
    let stores = storing(random, storer, m);
    let loads = loading(random, m);
    let sizes = if storer == PRODUCER {
        [stores, loads]
    } else {
        [loads, stores]
    };
    let count = sizes[0].iter().map(|&size| usize::from(size)).sum();
    let mut file = RunFile {
        m,
        modulus,
        orders: random.range(0, 15) as u8,
        sizes,
        bytes: (0..count).map(|_| random.byte()).collect(),
        schedule: Vec::new(),
    };
    file.schedule = schedule(random, &file, storer);
    file
}
