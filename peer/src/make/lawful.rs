//! Lawful files: mostly small rings, so that the indexes wrap often.

use super::schedule;
use crate::file::{RunFile, HEAD, MOST_BYTES, MOST_MODULUS, MOST_ORDERS};
use crate::random::Random;

/// m and M.
pub fn ring(random: &mut Random) -> (u32, u32) {
    match random.range(0, 99) {
        0..=69 => {
            let m = random.range(1, 4);
            (m, m * random.range(2, 5))
        }
        70..=77 => (128, 256),
        78..=85 => (128, MOST_MODULUS),
        86..=89 => (1, 2),
        _ => {
            let m = random.range(1, 128);
            (m, m * random.range(2, MOST_MODULUS / m))
        }
    }
}

/// A batch size: mostly one that fits the ring, or 0 so many times in a hundred.
fn size(random: &mut Random, m: u32, empty: u32) -> u8 {
    if random.percent(empty) {
        return 0;
    }
    match random.range(0, 99) {
        0..=2 => 255,
        3..=6 => random.byte(),
        7..=13 => (m + random.range(1, 3)).min(255) as u8,
        14..=23 => m as u8,
        24..=59 => random.range(1, m.min(3)) as u8,
        _ => random.range(1, m) as u8,
    }
}

/// The sizes of one core's batches; `empties` are shares of empty ones to choose from.
fn sizes(random: &mut Random, m: u32, empties: &[u32]) -> Vec<u8> {
    let most = match random.range(0, 99) {
        0..=54 => 10,
        55..=89 => 50,
        _ => 255,
    };
    let all = if most == 255 { 50 } else { 10 };
    let count = if random.percent(all) {
        most
    } else {
        random.range(0, most)
    };
    let empty = random.pick(empties);
    (0..count).map(|_| size(random, m, empty)).collect()
}

pub fn make(random: &mut Random) -> RunFile {
    let (m, modulus) = ring(random);
    let orders = if random.percent(45) {
        MOST_ORDERS
    } else {
        random.range(0, 15) as u8
    };
    let pushes = sizes(random, m, &[0, 5, 5, 10, 60]);
    // Pops like the pushes let the ring go round as often as it can; empty pops store front
    // often without a data access that could race.
    let pops = if random.percent(50) {
        pushes.clone()
    } else {
        sizes(random, m, &[0, 5, 5, 10, 60, 100])
    };
    let sizes = [pushes, pops];
    let count = sizes[0].iter().map(|&size| usize::from(size)).sum();
    let bytes = (0..count).map(|_| random.byte()).collect();
    let mut file = RunFile {
        m,
        modulus,
        orders,
        sizes,
        bytes,
        schedule: Vec::new(),
    };
    // Should the batches alone be too long (hardly ever), the file gets no schedule, and code 2.
    let used = HEAD + file.sizes[0].len() + file.sizes[1].len() + file.bytes.len();
    file.schedule = schedule::make(random, &file, MOST_BYTES.saturating_sub(used) / 2);
    file
}
