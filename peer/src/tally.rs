//! How often each code, mark, order setting and border was seen, counted by files.

use crate::actions::Hidden;
use crate::file::{MOST_BYTES, MOST_MODULUS, MOST_SLOTS, REPORT_BYTES};
use crate::machine::{largest, performed, refused, report, Shortfall, CONSUMER, PRODUCER};
use crate::print::Played;
#[cfg(feature = "library")]
use crate::race::Races;
use std::fmt;

pub const CODES: usize = 12;

/// Times round that are counted.
pub const WRAPS: [u32; 4] = [1, 2, 3, 10];

/// File lengths about the longest that is lawful.
pub const LENGTHS: [usize; 3] = [MOST_BYTES - 1, MOST_BYTES, MOST_BYTES + 1];

/// Report lengths about the least that is enough.
pub const REPORTS: [usize; 2] = [REPORT_BYTES - 1, REPORT_BYTES];

/// Nothing but numbers, so that it may lie in memory that processes share.
#[derive(Clone, Copy)]
#[repr(C)]
pub struct Tally {
    pub files: u64,
    /// Calls of the library; 0 where files went through a program.
    pub calls: u64,
    /// Files for which the code was given, with whatever buffers.
    pub codes: [u64; CODES],
    /// Entries with each mark.
    marks: [u64; 256],
    /// Files in which each mark was seen.
    pub files_with: [u64; 256],
    pub settings: [u64; 16],
    races: [u64; 16],
    hidden: [u64; 16],
    /// Files in which a store was hidden by coherence alone, by setting.
    pub coherence: [u64; 16],
    /// Files in which a store was hidden from the producer, and from the consumer: by both rules, by coherence alone, by axiom 2 alone.
    pub hidden_by: [[u64; 3]; 2],
    /// Files in which the producer, and the consumer, loaded again the store that it had read last, an older one.
    pub read_again: [u64; 2],
    /// Files in which the producer, and the consumer, loaded a store whose place the other core's loads had passed in the other index.
    pub read_behind: [u64; 2],
    /// Files in which back, and front, passed the modulus so many times or more.
    pub wraps: [[u64; WRAPS.len()]; 2],
    /// Files in which the producer, and the consumer, completed 255 batches.
    pub all_completed: [u64; 2],
    /// Files in which the producer, and the consumer, loaded the foreign index at age 255.
    pub oldest_loads: [u64; 2],
    /// Files whose largest shortfall of a push, and of a pop, is above 1.
    pub short_by_more: [u64; 2],
    /// Files in which the latest failed push, and pop, lacked less than the largest.
    pub short_by_less: [u64; 2],
    /// Files whose largest shortfall would be another one before the reloads.
    pub short_at_first: [u64; 2],
    /// Files in which pushes and pops failed, with different largest shortfalls.
    pub both_short: u64,
    /// Lawful files with the greatest ring, and with the greatest modulus.
    pub greatest_ring: u64,
    pub greatest_modulus: u64,
    pub lengths: [u64; LENGTHS.len()],
    /// Calls with a lawful file, by which buffers were too short: marks 1, out 2, report 4, added up.
    pub short: [u64; 8],
    /// Calls in which nothing else was too short, with reports of these lengths.
    pub reports: [u64; REPORTS.len()],
    /// Calls with an empty buffer, lent by its address and as a null pointer.
    pub empty: [u64; 2],
    most_entries: u64,
    /// Foreign loads performed at an age other than 0.
    stale_loads: u64,
    /// What the library was asked alone, whether the file races.
    #[cfg(feature = "library")]
    pub race: Races,
}

/// The marks that there are.
pub fn all_marks() -> impl Iterator<Item = usize> {
    let range = |least, most| usize::from(least)..=usize::from(most);
    range(performed::OWN_LOAD, performed::RACE).chain(range(refused::NO_CORE, refused::HIDDEN))
}

#[cfg(feature = "library")]
fn add<const N: usize>(to: &mut [u64; N], more: &[u64; N]) {
    to.iter_mut().zip(more).for_each(|(to, more)| *to += more);
}

impl Tally {
    pub fn new() -> Self {
        Tally {
            files: 0,
            calls: 0,
            codes: [0; CODES],
            marks: [0; 256],
            files_with: [0; 256],
            settings: [0; 16],
            races: [0; 16],
            hidden: [0; 16],
            coherence: [0; 16],
            hidden_by: [[0; 3]; 2],
            read_again: [0; 2],
            read_behind: [0; 2],
            wraps: [[0; WRAPS.len()]; 2],
            all_completed: [0; 2],
            oldest_loads: [0; 2],
            short_by_more: [0; 2],
            short_by_less: [0; 2],
            short_at_first: [0; 2],
            both_short: 0,
            greatest_ring: 0,
            greatest_modulus: 0,
            lengths: [0; LENGTHS.len()],
            short: [0; 8],
            reports: [0; REPORTS.len()],
            empty: [0; 2],
            most_entries: 0,
            stale_loads: 0,
            #[cfg(feature = "library")]
            race: Races::default(),
        }
    }

    /// Counts a file and the codes that it was given, each once.
    pub fn count(&mut self, file: &[u8], played: &Played, codes: &[u8]) {
        self.files += 1;
        for code in 0..CODES as u8 {
            self.codes[usize::from(code)] += u64::from(codes.contains(&code));
        }
        for (files, length) in self.lengths.iter_mut().zip(LENGTHS) {
            *files += u64::from(file.len() == length);
        }
        if played.code == 0 {
            self.count_ring(file, played);
            self.count_marks(file, played);
            self.count_entries(file, played);
            self.count_shortfalls(played);
            self.count_hidden(file, played);
            self.count_reads(file, played);
        }
    }

    fn count_ring(&mut self, file: &[u8], played: &Played) {
        let modulus = u32::from_le_bytes([file[1], file[2], file[3], file[4]]);
        self.greatest_ring += u64::from(file[0] == MOST_SLOTS);
        self.greatest_modulus += u64::from(modulus == MOST_MODULUS);
        // Both indexes start at 0, so the bytes of completed batches tell how often they went round.
        for core in [PRODUCER, CONSUMER] {
            for (files, times) in self.wraps[core].iter_mut().zip(WRAPS) {
                *files +=
                    u64::from(played.numbers[report::COMPLETED_BYTES + core] / modulus >= times);
            }
        }
    }

    fn count_marks(&mut self, file: &[u8], played: &Played) {
        let mut seen = [0; 256];
        for &mark in &played.marks {
            seen[usize::from(mark)] += 1;
        }
        for (mark, times) in seen.into_iter().enumerate() {
            self.marks[mark] += times;
            self.files_with[mark] += u64::from(times > 0);
        }
        let setting = usize::from(file[5]);
        self.settings[setting] += 1;
        self.races[setting] += u64::from(seen[usize::from(performed::RACE)] > 0);
        self.hidden[setting] += u64::from(seen[usize::from(refused::HIDDEN)] > 0);
        self.most_entries = self.most_entries.max(played.marks.len() as u64);
    }

    fn count_entries(&mut self, file: &[u8], played: &Played) {
        let schedule = &file[file.len() - 2 * played.marks.len()..];
        let (mut completed, mut oldest) = ([0; 2], [false; 2]);
        for (&mark, entry) in played.marks.iter().zip(schedule.chunks(2)) {
            let (core, age) = (usize::from(entry[0]), entry[1]);
            match mark {
                performed::INDEX_STORE => completed[core] += 1,
                performed::ROOM_ENOUGH | performed::BATCH_FAILED => {
                    self.stale_loads += u64::from(age != 0);
                    oldest[core] |= age == u8::MAX;
                }
                _ => {}
            }
        }
        for core in [PRODUCER, CONSUMER] {
            self.all_completed[core] += u64::from(completed[core] == u64::from(u8::MAX));
            self.oldest_loads[core] += u64::from(oldest[core]);
        }
    }

    fn count_hidden(&mut self, file: &[u8], played: &Played) {
        let hidden = &played.inside.hidden;
        let by_both: fn(&Hidden) -> bool = |by| by.axiom_2 && by.coherence;
        let rules = [
            by_both,
            Hidden::by_coherence_alone,
            Hidden::by_axiom_2_alone,
        ];
        for (files, hidden) in self.hidden_by.iter_mut().zip(hidden) {
            for (files, rule) in files.iter_mut().zip(rules) {
                *files += u64::from(hidden.iter().any(rule));
            }
        }
        let alone = hidden.iter().flatten().any(Hidden::by_coherence_alone);
        self.coherence[usize::from(file[5])] += u64::from(alone);
    }

    /// The places of the stores that foreign loads read, by the marks and the ages.
    fn count_reads(&mut self, file: &[u8], played: &Played) {
        let schedule = &file[file.len() - 2 * played.marks.len()..];
        let (mut stores, mut latest) = ([0; 2], [None; 2]);
        let (mut again, mut behind) = ([false; 2], [false; 2]);
        for (&mark, entry) in played.marks.iter().zip(schedule.chunks(2)) {
            let (core, age) = (usize::from(entry[0]), usize::from(entry[1]));
            match mark {
                performed::INDEX_STORE => stores[core] += 1,
                performed::ROOM_ENOUGH | performed::BATCH_FAILED => {
                    let place = Some(stores[1 - core] - age);
                    again[core] |= age != 0 && place == latest[core];
                    behind[core] |= place < latest[1 - core];
                    latest[core] = place;
                }
                _ => {}
            }
        }
        for core in [PRODUCER, CONSUMER] {
            self.read_again[core] += u64::from(again[core]);
            self.read_behind[core] += u64::from(behind[core]);
        }
    }

    fn count_shortfalls(&mut self, played: &Played) {
        for (core, shortfalls) in played.inside.shortfalls.iter().enumerate() {
            let reported = played.numbers[report::SHORTFALL + core];
            let at_first = largest(shortfalls.iter().map(|shortfall| shortfall.at_first));
            let less = |latest: &Shortfall| latest.reloaded < reported;
            self.short_by_more[core] += u64::from(reported > 1);
            self.short_by_less[core] += u64::from(shortfalls.last().map_or(false, less));
            self.short_at_first[core] += u64::from(at_first != reported);
        }
        let [push, pop] = [PRODUCER, CONSUMER].map(|core| played.numbers[report::SHORTFALL + core]);
        self.both_short += u64::from(push != 0 && pop != 0 && push != pop);
    }

    /// Takes over what another has counted.
    #[cfg(feature = "library")]
    pub fn add(&mut self, more: &Tally) {
        self.files += more.files;
        self.calls += more.calls;
        add(&mut self.codes, &more.codes);
        add(&mut self.marks, &more.marks);
        add(&mut self.files_with, &more.files_with);
        add(&mut self.settings, &more.settings);
        add(&mut self.races, &more.races);
        add(&mut self.hidden, &more.hidden);
        add(&mut self.coherence, &more.coherence);
        add(&mut self.hidden_by[PRODUCER], &more.hidden_by[PRODUCER]);
        add(&mut self.hidden_by[CONSUMER], &more.hidden_by[CONSUMER]);
        add(&mut self.read_again, &more.read_again);
        add(&mut self.read_behind, &more.read_behind);
        add(&mut self.wraps[PRODUCER], &more.wraps[PRODUCER]);
        add(&mut self.wraps[CONSUMER], &more.wraps[CONSUMER]);
        add(&mut self.all_completed, &more.all_completed);
        add(&mut self.oldest_loads, &more.oldest_loads);
        add(&mut self.short_by_more, &more.short_by_more);
        add(&mut self.short_by_less, &more.short_by_less);
        add(&mut self.short_at_first, &more.short_at_first);
        self.both_short += more.both_short;
        self.greatest_ring += more.greatest_ring;
        self.greatest_modulus += more.greatest_modulus;
        add(&mut self.lengths, &more.lengths);
        add(&mut self.short, &more.short);
        add(&mut self.reports, &more.reports);
        add(&mut self.empty, &more.empty);
        self.most_entries = self.most_entries.max(more.most_entries);
        self.stale_loads += more.stale_loads;
        self.race.add(&more.race);
    }
}

impl fmt::Display for Tally {
    fn fmt(&self, to: &mut fmt::Formatter) -> fmt::Result {
        let (files, most) = (self.files, self.most_entries);
        writeln!(to, "files {files}, most entries {most}")?;
        for (code, files) in self.codes.iter().enumerate() {
            writeln!(to, "code {code}: {files} files")?;
        }
        for mark in all_marks() {
            let (entries, files) = (self.marks[mark], self.files_with[mark]);
            writeln!(to, "mark {mark}: {files} files, {entries} entries")?;
        }
        for bits in 0..16 {
            let (files, races) = (self.settings[bits], self.races[bits]);
            let (hidden, coherence) = (self.hidden[bits], self.coherence[bits]);
            writeln!(
                to,
                "orders {bits}: {files} files, {races} with a race, {hidden} with a hidden store, {coherence} by coherence alone"
            )?;
        }
        for (core, (name, index)) in [("producer", "back"), ("consumer", "front")]
            .into_iter()
            .enumerate()
        {
            for (files, times) in self.wraps[core].iter().zip(WRAPS) {
                writeln!(to, "{index} wrapped {times} times or more: {files} files")?;
            }
            let (completed, oldest) = (self.all_completed[core], self.oldest_loads[core]);
            writeln!(
                to,
                "{name}: 255 batches completed in {completed} files, a foreign load at age 255 in {oldest}"
            )?;
            let [both, coherence, axiom_2] = self.hidden_by[core];
            writeln!(
                to,
                "{name}: a store hidden by both rules in {both} files, by coherence alone in {coherence}, by axiom 2 alone in {axiom_2}"
            )?;
            let (again, behind) = (self.read_again[core], self.read_behind[core]);
            writeln!(
                to,
                "{name}: an older store read again in {again} files, one behind the other core's in {behind}"
            )?;
        }
        for (core, name) in ["push", "pop"].into_iter().enumerate() {
            let [more, less, first] = [self.short_by_more, self.short_by_less, self.short_at_first]
                .map(|files| files[core]);
            writeln!(
                to,
                "failed {name}: by more than 1 in {more} files, the latest by less than the largest in {less}, \
                the largest another before the reload in {first}"
            )?;
        }
        writeln!(
            to,
            "failed pushes and pops, with different largest shortfalls: {} files",
            self.both_short
        )?;
        writeln!(to, "foreign loads of an older store: {}", self.stale_loads)?;
        writeln!(
            to,
            "m = {MOST_SLOTS}: {} files; M = {MOST_MODULUS}: {}",
            self.greatest_ring, self.greatest_modulus
        )?;
        for (files, length) in self.lengths.iter().zip(LENGTHS) {
            writeln!(to, "length {length}: {files} files")?;
        }
        if self.calls == 0 {
            return Ok(());
        }
        let (calls, short, [address, null]) = (self.calls, self.short, self.empty);
        let [less, enough] = self.reports;
        writeln!(
            to,
            "calls {calls}; by short buffers (marks 1, out 2, report 4) {short:?}; a report alone one short {less}, just enough {enough}; \
            with an empty one {address}, as a null pointer {null}"
        )?;
        #[cfg(feature = "library")]
        writeln!(to, "{}", self.race)?;
        Ok(())
    }
}
