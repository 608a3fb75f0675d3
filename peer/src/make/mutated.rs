//! Mutated files: a lawful file with one thing in it changed, and lawful still.

use super::lawful;
use crate::file::RunFile;
use crate::random::Random;

/// A place in a list that is not empty.
fn place(random: &mut Random, length: usize) -> usize {
    random.range(0, length as u32 - 1) as usize
}

/// Changes the schedule: an entry's core or age, its place, or whether it is there.
fn mutate_schedule(random: &mut Random, file: &mut RunFile) {
    let length = file.schedule.len();
    let (at, other) = (place(random, length), place(random, length));
    match random.range(0, 5) {
        0 => file.schedule[at].core = random.pick(&[0, 1, 2, 255]),
        1 => file.schedule[at].core ^= 1,
        2 => file.schedule[at].age = random.pick(&[0, 1, 2, 254, 255]),
        3 => file.schedule.swap(at, other),
        4 => {
            file.schedule.remove(at);
        }
        _ => {
            let entry = file.schedule[other];
            file.schedule.insert(at, entry);
        }
    }
}

/// Changes one batch's size; a push takes bytes with it or leaves them to the next.
fn mutate_size(random: &mut Random, file: &mut RunFile, core: usize) {
    let batch = place(random, file.sizes[core].len());
    let size = &mut file.sizes[core][batch];
    *size = match random.range(0, 3) {
        0 => size.saturating_add(1),
        1 => size.saturating_sub(1),
        2 => 0,
        _ => random.byte(),
    };
    if core == 0 {
        let count = file.sizes[0].iter().map(|&size| usize::from(size)).sum();
        file.bytes.resize(count, random.byte());
    }
}

pub fn make(random: &mut Random) -> Vec<u8> {
    let mut file = lawful::make(random);
    let core = random.range(0, 1) as usize;
    match random.range(0, 9) {
        0..=4 if !file.schedule.is_empty() => mutate_schedule(random, &mut file),
        5 | 6 if !file.sizes[core].is_empty() => mutate_size(random, &mut file, core),
        7 => file.modulus = file.m * random.range(2, 5),
        _ => file.orders ^= 1 << random.range(0, 3),
    }
    file.write()
}
