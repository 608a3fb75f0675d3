//! Files at both sides of the border of each code.

use super::lawful;
use crate::file::{Entry, RunFile, HEAD, MOST_BYTES};
use crate::random::Random;

const SIZES: [u8; 6] = [0, 1, 127, 128, 129, 255];
const ORDERS: [u8; 6] = [0, 15, 16, 17, 128, 255];

/// A modulus at a border of its own or of a rule about m.
fn modulus(random: &mut Random, m: u32) -> u32 {
    match random.range(0, 2) {
        0 => random.pick(&[
            0,
            1,
            2,
            3,
            65_535,
            65_536,
            65_537,
            1 << 17,
            (1 << 24) + 2,
            u32::MAX,
        ]),
        1 => random.pick(&[m, m + 1, (2 * m).wrapping_sub(1), 2 * m, 2 * m + 1, 3 * m]),
        _ => {
            // The greatest multiple of m within the limit, or next to it.
            let most = 65_536 / m.max(1) * m;
            random.pick(&[most.saturating_sub(1), most, most + 1, most + m])
        }
    }
}

fn set_modulus(file: &mut [u8], modulus: u32) {
    file[1..5].copy_from_slice(&modulus.to_le_bytes());
}

/// Fills the schedule up until the file has this many bytes; an odd rest is one more byte.
fn lengthen(random: &mut Random, file: &RunFile, bytes: usize) -> Vec<u8> {
    let mut long = file.write();
    while long.len() + 2 <= bytes {
        // Most of these find no batch left, so that a long file stays quick to play.
        let entry = Entry {
            core: random.pick(&[0, 1, 0, 1, 0, 1, 2, 255]),
            age: random.pick(&[0, 0, 1]),
        };
        long.extend([entry.core, entry.age]);
    }
    long.resize(bytes, 0);
    long
}

pub fn make(random: &mut Random) -> Vec<u8> {
    let lawful = lawful::make(random);
    let mut file = lawful.write();
    let sizes = HEAD + lawful.sizes[0].len() + lawful.sizes[1].len();
    let bytes = sizes + lawful.bytes.len();
    match random.range(0, 15) {
        0 => file.truncate(random.range(0, 9) as usize),
        1 | 2 => {
            let length = random.pick(&[
                65_535,
                MOST_BYTES,
                MOST_BYTES,
                MOST_BYTES + 1,
                65_538,
                70_000,
            ]);
            file = lengthen(random, &lawful, length);
        }
        3 => file[0] = random.pick(&SIZES),
        4 => {
            file[0] = random.pick(&SIZES);
            let modulus = 2 * u32::from(file[0]);
            set_modulus(&mut file, modulus);
        }
        5..=7 => set_modulus(&mut file, modulus(random, lawful.m)),
        8 | 9 => file[5] = random.pick(&ORDERS),
        10..=12 => {
            // Cut about the last batch size or the last byte to push.
            let end = random.pick(&[HEAD, sizes, bytes]) + random.range(0, 4) as usize;
            file.truncate(end.saturating_sub(2));
        }
        13 => file.push(random.byte()),
        14 => file[random.range(6, 7) as usize] = random.pick(&[0, 1, 254, 255]),
        _ => {
            // Several at once: the first in the table decides.
            file[0] = random.pick(&SIZES);
            let modulus = modulus(random, u32::from(file[0]));
            set_modulus(&mut file, modulus);
            file[5] = random.pick(&ORDERS);
            if random.percent(50) {
                file.pop();
            }
        }
    }
    file
}
