//! How the three buffers of a call are lent: how long beside what the file needs, and what they hold beforehand.

use crate::file::{read, Lent, RunFile, ENOUGH, REPORT_BYTES};
use crate::random::Random;
use std::fmt;

pub const NAMES: [&str; 3] = ["marks", "out", "report"];

/// A buffer's length, beside what is needed of it.
#[derive(Clone, Copy, Debug, PartialEq)]
pub enum Length {
    Enough,
    Longer(usize),
    OneShort,
    Empty,
}

impl Length {
    fn of(self, need: usize) -> usize {
        match self {
            Length::Enough => need,
            Length::Longer(more) => need + more,
            Length::OneShort => need.saturating_sub(1),
            Length::Empty => 0,
        }
    }
}

#[derive(Clone, Copy)]
pub struct Lending {
    /// Of marks, out and report.
    pub lengths: [Length; 3],
    /// Whether an empty buffer is a null pointer.
    pub null: bool,
    /// Chooses the bytes that the buffers hold beforehand.
    pub fill: u8,
}

/// Most bytes that a longer buffer has beside what is needed.
pub const MOST_MORE: usize = 5_000;

/// What is lent beside a refused file, which needs nothing: enough to see that nothing is written.
const REFUSED_NEEDS: [usize; 3] = [16, 16, REPORT_BYTES];

/// What a file needs of marks, out and report.
pub fn needs(file: &[u8]) -> [usize; 3] {
    let of_lawful = |file: RunFile| {
        let out = file.sizes[1].iter().map(|&size| usize::from(size)).sum();
        [file.schedule.len(), out, REPORT_BYTES]
    };
    read(file, ENOUGH).map_or(REFUSED_NEEDS, of_lawful)
}

impl Lending {
    pub fn lent(&self, needs: [usize; 3]) -> Lent {
        let [marks, out, report] = [0, 1, 2].map(|buffer| self.lengths[buffer].of(needs[buffer]));
        Lent { marks, out, report }
    }

    /// The byte that a buffer holds beforehand at a place. A file's four calls have different ones at every place.
    pub fn filled(&self, buffer: usize, place: usize) -> u8 {
        self.fill
            .wrapping_add((place as u8).wrapping_mul(37))
            .wrapping_add(buffer as u8 * 85)
    }
}

impl fmt::Display for Lending {
    fn fmt(&self, to: &mut fmt::Formatter) -> fmt::Result {
        for (name, length) in NAMES.iter().zip(self.lengths) {
            match length {
                Length::Enough => write!(to, "{name} just enough, ")?,
                Length::Longer(more) => write!(to, "{name} longer by {more}, ")?,
                Length::OneShort => write!(to, "{name} one short, ")?,
                Length::Empty => write!(to, "{name} empty, ")?,
            }
        }
        let pointers = if self.null { "null" } else { "not null" };
        write!(to, "pointers of empty buffers {pointers}")
    }
}

fn longer(random: &mut Random) -> Length {
    let most = if random.percent(2) { MOST_MORE } else { 64 };
    Length::Longer(random.range(0, most as u32) as usize)
}

fn long_enough(random: &mut Random) -> Length {
    if random.percent(50) {
        Length::Enough
    } else {
        longer(random)
    }
}

/// Some of the buffers one short: every choice of them alike.
fn some_short(random: &mut Random) -> [Length; 3] {
    let short = random.range(1, 7);
    [0, 1, 2].map(|buffer| match short >> buffer & 1 {
        1 => Length::OneShort,
        _ => long_enough(random),
    })
}

fn any(random: &mut Random) -> [Length; 3] {
    [0, 1, 2].map(|_| match random.range(0, 3) {
        0 => Length::Empty,
        1 => Length::OneShort,
        _ => long_enough(random),
    })
}

/// The four calls made with each file: all just enough, all longer, some one short, any mixture.
pub fn lendings(random: &mut Random) -> [Lending; 4] {
    let lengths = [
        [Length::Enough; 3],
        [0, 1, 2].map(|_| longer(random)),
        some_short(random),
        any(random),
    ];
    let mut fill = random.byte();
    lengths.map(|lengths| {
        fill = fill.wrapping_add(64);
        Lending {
            lengths,
            null: random.percent(50),
            fill,
        }
    })
}

#[cfg(test)]
mod tests {
    use super::*;

    #[test]
    fn lengths_beside_what_is_needed() {
        // m=1, M=2, a pop of 3 bytes, two entries.
        let file = [1, 2, 0, 0, 0, 15, 0, 1, 3, 0, 0, 1, 0];
        assert_eq!(needs(&file), [2, 3, REPORT_BYTES]);
        let lending = Lending {
            lengths: [Length::OneShort, Length::Longer(4), Length::Empty],
            null: false,
            fill: 0,
        };
        let lent = lending.lent(needs(&file));
        assert_eq!((lent.marks, lent.out, lent.report), (1, 7, 0));
    }

    #[test]
    fn no_place_is_filled_alike_in_two_calls() {
        let fills = lendings(&mut Random::new(1, 1)).map(|lending| lending.filled(2, 77));
        for (call, fill) in fills.iter().enumerate() {
            assert!(!fills[..call].contains(fill));
        }
    }
}
