//! Every schedule of one run file: a tree that grows by every entry and stops where the state is one already seen.

use super::answer::{ask, Answer};
use crate::actions::Hidden;
use crate::file::{Entry, RunFile, MOST_ORDERS};
use crate::library;
use crate::machine::{performed, refused, report, Machine};
use crate::race::Race;
use std::collections::HashMap;
use std::fmt;

/// What was looked at.
#[derive(Clone, Copy, Default)]
#[repr(C)]
pub struct Looked {
    pub states: u64,
    /// Schedules that the library was called with, and their entries.
    pub schedules: u64,
    pub entries: u64,
    /// Performed entries that raced.
    pub races: u64,
    /// Performed entries that made a batch fail.
    pub failed: u64,
    /// Refused entries whose store coherence alone hides.
    pub coherence: u64,
    /// Schedules of performed entries, to their ends, that the tree stands for.
    pub stands_for: f64,
}

impl Looked {
    pub fn add(&mut self, more: &Looked) {
        self.states += more.states;
        self.schedules += more.schedules;
        self.entries += more.entries;
        self.races += more.races;
        self.failed += more.failed;
        self.coherence += more.coherence;
        self.stands_for += more.stands_for;
    }
}

impl fmt::Display for Looked {
    fn fmt(&self, to: &mut fmt::Formatter) -> fmt::Result {
        let Looked {
            states,
            schedules,
            entries,
            races,
            failed,
            coherence,
            stands_for,
        } = self;
        write!(
            to,
            "{states} states, {schedules} schedules played with {entries} entries, {races} races, {failed} failed batches, \
            {coherence} loads refused by coherence alone; for {stands_for:.1e} whole schedules"
        )
    }
}

/// Told of every file before the library is called with it.
pub type Note<'n> = &'n dyn Fn(&[u8]);

pub struct Tree<'f> {
    file: &'f RunFile,
    /// The file's bytes, with the schedule of the moment.
    bytes: Vec<u8>,
    head: usize,
    out: usize,
    /// For each state, how many schedules lead from it to an end.
    seen: HashMap<Vec<u8>, f64>,
    note: Note<'f>,
    pub looked: Looked,
}

/// A core byte that names no core.
const NO_CORE: u8 = 2;

/// The place of the order bits in a file.
const ORDERS: usize = 5;

/// The order bits that count: back synchronises by bits 1 and 2 together, front by bits 0 and 3 together.
fn synchronising(orders: u8) -> u8 {
    let pair = |bits| if orders & bits == bits { bits } else { 0 };
    pair(0b0110) | pair(0b1001)
}

/// The peer's answer where its machine has come so far with these marks.
fn answered(machine: &Machine, marks: Vec<u8>) -> Answer {
    Answer {
        code: 0,
        marks,
        out: machine.out().to_vec(),
        numbers: machine.numbers().to_vec(),
    }
}

/// What went wrong, and the schedule's bytes at that moment.
pub struct Wrong {
    pub why: String,
    pub file: Vec<u8>,
}

impl<'f> Tree<'f> {
    pub fn new(file: &'f RunFile, note: Note<'f>) -> Self {
        let bytes = file.write();
        Tree {
            file,
            head: bytes.len(),
            out: file.sizes[1].iter().map(|&size| usize::from(size)).sum(),
            bytes,
            seen: HashMap::new(),
            note,
            looked: Looked::default(),
        }
    }

    /// Looks at every schedule.
    pub fn grow(&mut self) -> Result<(), Wrong> {
        let machine = Machine::new(self.file);
        let mut marks = Vec::new();
        let start = self.check(&machine, &marks)?;
        self.looked.stands_for = self.from(&machine, &mut marks, &start)?;
        self.looked.states = self.seen.len() as u64;
        Ok(())
    }

    fn wrong(&self, why: &str) -> Wrong {
        Wrong {
            why: why.to_string(),
            file: self.bytes.clone(),
        }
    }

    /// Every entry that is tried: both cores with every age up to one past the initial store, and a byte that is no core.
    fn entries(machine: &Machine) -> Vec<Entry> {
        let ages = |core: usize| 0..=machine.foreign_stores(core) as u8;
        let of = |core: u8| ages(usize::from(core)).map(move |age| Entry { core, age });
        let no_core = Entry {
            core: NO_CORE,
            age: 0,
        };
        of(0).chain(of(1)).chain([no_core]).collect()
    }

    fn add(&mut self, entry: Entry) {
        self.bytes.extend([entry.core, entry.age]);
    }

    fn cut(&mut self, entries: usize) {
        self.bytes.truncate(self.bytes.len() - 2 * entries);
    }

    /// The library's answer to the schedule of the moment, held against the peer's and against what is promised.
    fn check(&mut self, machine: &Machine, marks: &[u8]) -> Result<Answer, Wrong> {
        (self.note)(&self.bytes);
        let answer = ask(&mut self.bytes, marks.len(), self.out);
        self.looked.schedules += 1;
        self.looked.entries += marks.len() as u64;
        if answer != answered(machine, marks.to_vec()) {
            return Err(self.wrong("the peer's answer is another"));
        }
        let race = Race {
            code: 0,
            entry: answer.numbers[report::RACE],
            partner: answer.numbers[report::RACE_PARTNER],
        };
        if let Some(why) = race.difference(library::race(&mut self.bytes, false)) {
            return Err(self.wrong(&format!("another answer: {why}")));
        }
        if self.file.orders == MOST_ORDERS && answer != self.without_coherence() {
            return Err(self.wrong("with strong orders, the answer without coherence is another"));
        }
        if !self.same_under(synchronising(self.file.orders), &answer) {
            return Err(self.wrong("another setting that synchronises alike gives another answer"));
        }
        let broken = answer.broken(self.file, &self.bytes[self.head..]);
        broken.map_or(Ok(answer), |sentence| {
            Err(self.wrong(&format!("not so: {sentence}")))
        })
    }

    /// What the peer answers to the schedule of the moment where axiom 2 alone hides stores.
    fn without_coherence(&self) -> Answer {
        let mut machine = Machine::without_coherence(self.file);
        let entries = self.bytes[self.head..].chunks(2);
        let marks = entries
            .map(|pair| {
                machine.play(Entry {
                    core: pair[0],
                    age: pair[1],
                })
            })
            .collect();
        answered(&machine, marks)
    }

    /// Whether the library answers the same under other order bits.
    fn same_under(&mut self, orders: u8, answer: &Answer) -> bool {
        let own = std::mem::replace(&mut self.bytes[ORDERS], orders);
        let same = own == orders || ask(&mut self.bytes, answer.marks.len(), self.out) == *answer;
        self.bytes[ORDERS] = own;
        same
    }

    /// How many schedules lead from here, with this answer, to an end. Everything that may be tried next is tried.
    fn from(
        &mut self,
        machine: &Machine,
        marks: &mut Vec<u8>,
        here: &Answer,
    ) -> Result<f64, Wrong> {
        let state = machine.state();
        if let Some(&schedules) = self.seen.get(&state) {
            return Ok(schedules);
        }
        let (mut refused, mut performed) = (Vec::new(), Vec::new());
        for entry in Self::entries(machine) {
            let mut after = machine.clone();
            match after.play(entry) {
                mark @ 128.. => refused.push((entry, mark)),
                mark => performed.push((entry, mark, after)),
            }
        }
        self.looked.coherence += by_coherence_alone(machine, &refused);
        let mut schedules = if performed.is_empty() { 1.0 } else { 0.0 };
        if performed.is_empty() {
            self.refused_first(machine, &refused, None, marks)?;
        }
        for (entry, mark, after) in performed {
            self.add(entry);
            marks.push(mark);
            let without = self.check(&after, marks)?;
            if !without.follows(here, self.file, &self.bytes[self.head..]) {
                return Err(self
                    .wrong("not so: a shortfall grows where a batch fails, to its size at most"));
            }
            self.looked.races += u64::from(without.raced());
            self.looked.failed += u64::from(mark == performed::BATCH_FAILED);
            schedules += self.from(&after, marks, &without)?;
            marks.pop();
            self.cut(1);
            let with = self.refused_first(machine, &refused, Some(entry), marks)?;
            if with != delayed(without, marks.len(), &refused) {
                self.add(entry);
                return Err(self.wrong("a refused entry before the last changes what it does"));
            }
        }
        self.seen.insert(state, schedules);
        Ok(schedules)
    }

    /// The library's answer where all entries that are refused here are tried first.
    fn refused_first(
        &mut self,
        machine: &Machine,
        refused: &[(Entry, u8)],
        last: Option<Entry>,
        marks: &[u8],
    ) -> Result<Answer, Wrong> {
        let (mut machine, mut marks) = (machine.clone(), marks.to_vec());
        let before = marks.len();
        for entry in refused.iter().map(|(entry, _)| *entry).chain(last) {
            self.add(entry);
            marks.push(machine.play(entry));
        }
        let answer = self.check(&machine, &marks)?;
        self.cut(marks.len() - before);
        Ok(answer)
    }
}

/// How many of the refused entries load a store that coherence alone hides.
fn by_coherence_alone(machine: &Machine, refused: &[(Entry, u8)]) -> u64 {
    let hidden = refused.iter().filter(|(_, mark)| *mark == refused::HIDDEN);
    let by = hidden.filter_map(|(entry, _)| machine.hidden(usize::from(entry.core), entry.age));
    by.filter(Hidden::by_coherence_alone).count() as u64
}

/// An answer as it must be where refused entries stand before its last: their marks and their number more, a race so
/// many entries later, and everything else the same.
fn delayed(mut answer: Answer, at: usize, refused: &[(Entry, u8)]) -> Answer {
    let count = refused.len() as u32;
    answer
        .marks
        .splice(at..at, refused.iter().map(|(_, mark)| *mark));
    answer.numbers[report::REFUSED] += count;
    if answer.numbers[report::RACE] != 0 {
        answer.numbers[report::RACE] += count;
    }
    answer
}
