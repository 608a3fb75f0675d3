//! Only: does it race? What the library must answer to that question for a file, and how often each answer was seen.

use crate::machine::report;
use crate::print::Played;
use std::fmt;

/// A file's code; of a lawful one the racing entry and its partner, both 0 where nothing races.
#[derive(Clone, Copy, Debug, PartialEq)]
pub struct Race {
    pub code: u8,
    pub entry: u32,
    pub partner: u32,
}

/// Codes that the question may be answered with: from 0 to 8, since no buffer is lent.
pub const RACE_CODES: usize = 9;

/// Where the entry and the partner begin in the library's answer; each has 24 bits. The code has the 8 bits before.
const ENTRY: u32 = 8;
const PARTNER: u32 = 32;
const BITS: u32 = 24;

impl Race {
    /// What is to be answered for a file that was played with buffers that are never too short.
    pub fn of(played: &Played) -> Self {
        let number = |place: usize| played.numbers.get(place).copied().unwrap_or(0);
        Race {
            code: played.code,
            entry: number(report::RACE),
            partner: number(report::RACE_PARTNER),
        }
    }

    /// The parts of the library's answer.
    pub fn from_answer(answer: u64) -> Self {
        let number = |at: u32| (answer >> at & ((1 << BITS) - 1)) as u32;
        Race {
            code: answer as u8,
            entry: number(ENTRY),
            partner: number(PARTNER),
        }
    }

    /// In what the library's answer is another, in words. Bits that belong to no part are 0.
    pub fn difference(&self, answer: u64) -> Option<String> {
        let there = Race::from_answer(answer);
        if answer >> (PARTNER + BITS) != 0 {
            return Some(format!("race: bits above the partner in {answer:#x}"));
        }
        (there != *self).then(|| format!("race: {self} here, {there} there"))
    }
}

impl fmt::Display for Race {
    fn fmt(&self, to: &mut fmt::Formatter) -> fmt::Result {
        let Race {
            code,
            entry,
            partner,
        } = self;
        write!(to, "code {code}, entry {entry}, partner {partner}")
    }
}

/// The answers seen, counted by files.
#[derive(Clone, Copy, Default)]
#[repr(C)]
pub struct Races {
    pub codes: [u64; RACE_CODES],
    /// Files that raced, by the core of the racing entry.
    pub by: [u64; 2],
    /// Lawful files in which nothing raced.
    pub none: u64,
}

impl Races {
    pub fn count(&mut self, file: &[u8], played: &Played) {
        let race = Race::of(played);
        self.codes[usize::from(race.code)] += 1;
        if race.code != 0 {
            return;
        }
        let schedule = &file[file.len() - 2 * played.marks.len()..];
        match race.entry {
            0 => self.none += 1,
            entry => self.by[usize::from(schedule[2 * entry as usize - 2])] += 1,
        }
    }

    /// Takes over what another has counted.
    pub fn add(&mut self, more: &Races) {
        let pairs = self.codes.iter_mut().zip(&more.codes);
        for (to, more) in pairs.chain(self.by.iter_mut().zip(&more.by)) {
            *to += more;
        }
        self.none += more.none;
    }
}

impl fmt::Display for Races {
    fn fmt(&self, to: &mut fmt::Formatter) -> fmt::Result {
        let (codes, [producer, consumer], none) = (self.codes, self.by, self.none);
        write!(
            to,
            "asked only whether it races, files by code {codes:?}; by the racing core: producer {producer}, consumer {consumer}; no race {none}"
        )
    }
}

#[cfg(test)]
mod tests {
    use super::*;
    use crate::print::play;

    /// R2 of the document: entry 6, the consumer's, races with entry 2.
    fn worked() -> Vec<u8> {
        let mut file = vec![1, 2, 0, 0, 0, 13, 1, 1, 1, 1, 65];
        file.extend([0, 0].repeat(3));
        file.extend([1, 0].repeat(4));
        file
    }

    #[test]
    fn every_part_of_an_answer_is_looked_at() {
        let race = Race::of(&play(&worked()));
        let right = 6 << ENTRY | 2 << PARTNER;
        assert_eq!(race.difference(right), None);
        let exchanged = "race: code 0, entry 6, partner 2 here, code 0, entry 2, partner 6 there";
        assert_eq!(
            race.difference(2 << ENTRY | 6 << PARTNER).as_deref(),
            Some(exchanged)
        );
        for bit in 0..u64::BITS {
            assert!(race.difference(right ^ 1 << bit).is_some(), "bit {bit}");
        }
        assert_eq!(Race::of(&play(&[])).difference(1), None);
        assert!(Race::of(&play(&[])).difference(1 | 1 << ENTRY).is_some());
    }

    #[test]
    fn answers_are_counted_by_code_and_core() {
        let mut races = Races::default();
        let mut strong = worked();
        strong[5] = 15;
        for file in [&worked()[..], &strong, &[]] {
            races.count(file, &play(file));
        }
        let mut twice = races;
        twice.add(&races);
        assert_eq!((races.codes[0], races.codes[1]), (2, 1));
        assert_eq!((twice.codes[0], twice.by, twice.none), (4, [0, 2], 2));
    }
}
