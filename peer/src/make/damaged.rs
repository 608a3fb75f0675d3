//! Damaged files: bytes of a lawful file changed, cut off, left out, doubled or added.

use super::lawful;
use crate::file::HEAD;
use crate::random::Random;

/// One place in the file, often among its first bytes.
fn place(random: &mut Random, file: &[u8]) -> usize {
    let most = if random.percent(40) {
        file.len().min(HEAD + 8)
    } else {
        file.len()
    };
    random.range(0, (most as u32).max(1) - 1) as usize
}

fn damage(random: &mut Random, file: &mut Vec<u8>) {
    let at = place(random, file);
    match random.range(0, 9) {
        _ if file.is_empty() => file.push(random.byte()),
        0..=2 => file[at] = random.byte(),
        3 => file[at] ^= 1 << random.range(0, 7),
        4 => file[at] = file[at].wrapping_add(random.pick(&[1, 255])),
        5 => file.truncate(at),
        6 => {
            let end = (at + random.range(1, 4) as usize).min(file.len());
            file.drain(at..end);
        }
        7 => {
            let end = (at + random.range(1, 16) as usize).min(file.len());
            let doubled = file[at..end].to_vec();
            file.splice(at..at, doubled);
        }
        8 => {
            // Entries as they may stand in a schedule.
            for _ in 0..random.range(1, 8) {
                file.extend([random.pick(&[0, 1, 2]), random.pick(&[0, 0, 1])]);
            }
        }
        _ => {
            for _ in 0..random.range(1, 5) {
                file.push(random.byte());
            }
        }
    }
}

pub fn make(random: &mut Random) -> Vec<u8> {
    let mut file = lawful::make(random).write();
    for _ in 0..random.pick(&[1, 1, 1, 2, 2, 4]) {
        damage(random, &mut file);
    }
    file
}
