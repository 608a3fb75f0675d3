//! The library's own answer to a run file, and what is promised of it (docs/PROMISES.md), with nothing of the peer's machine.

use super::failed::{failed, Failed};
use super::reads::goes_back;
use crate::file::{RunFile, MOST_ORDERS, REPORT_BYTES};
use crate::library;
use crate::machine::{performed, refused, report, CONSUMER, PRODUCER};
use crate::print::numbers;

#[derive(Clone, PartialEq)]
pub struct Answer {
    pub code: u32,
    pub marks: Vec<u8>,
    /// The bytes that the report says were read.
    pub out: Vec<u8>,
    pub numbers: Vec<u32>,
}

/// Calls the library with buffers just long enough.
pub fn ask(file: &mut [u8], entries: usize, out: usize) -> Answer {
    let mut answer = Answer {
        code: 0,
        marks: vec![0; entries],
        out: vec![0; out],
        numbers: Vec::new(),
    };
    let mut written = [0; REPORT_BYTES];
    let buffers = [&mut answer.marks[..], &mut answer.out, &mut written];
    answer.code = library::run(file, buffers, false);
    answer.numbers = numbers(&written);
    answer
        .out
        .truncate(answer.numbers[report::DATA_LOADS] as usize);
    answer
}

impl Answer {
    /// The bytes of the completed pushes, by the marks: those of failed batches are passed over.
    fn pushed(&self, file: &RunFile, schedule: &[u8]) -> Vec<u8> {
        let (mut pushed, mut batch, mut passed) = (Vec::new(), 0, 0);
        for (&mark, entry) in self.marks.iter().zip(schedule.chunks(2)) {
            let ends = matches!(mark, performed::INDEX_STORE | performed::BATCH_FAILED);
            if entry[0] == 0 && ends {
                let bytes = &file.bytes[passed..passed + usize::from(file.sizes[0][batch])];
                if mark == performed::INDEX_STORE {
                    pushed.extend(bytes);
                }
                batch += 1;
                passed += bytes.len();
            }
        }
        pushed
    }

    pub fn raced(&self) -> bool {
        self.marks.contains(&performed::RACE)
    }

    /// The largest shortfall that is reported of a core's batches.
    fn shortfall(&self, core: usize) -> i64 {
        i64::from(self.numbers[report::SHORTFALL + core])
    }

    /// The first promise about shortfalls that the answer breaks: a number is 0 exactly where no such batch failed, and at most
    /// a failed batch's size; with all orders strong, the most that a failed batch lacked by the store that it read.
    fn broken_shortfall(&self, file: &RunFile, schedule: &[u8]) -> Option<&'static str> {
        let failed = failed(file, &self.marks, schedule);
        let strong = file.orders == MOST_ORDERS;
        [PRODUCER, CONSUMER].into_iter().find_map(|core| {
            let of_core = || failed.iter().filter(|batch| batch.core == core);
            let most = |of: fn(&Failed) -> i64| of_core().map(of).max().unwrap_or(0);
            let reported = self.shortfall(core);
            first_broken(&[
                (
                    (reported > 0) == (of_core().count() > 0),
                    "a shortfall is reported where a batch failed",
                ),
                (
                    reported <= most(|batch| batch.size),
                    "no batch fails by more than its size",
                ),
                (
                    !strong || of_core().all(Failed::lacks_of_its_own),
                    "a batch that fails lacks bytes by the store that it read",
                ),
                (
                    !strong || reported == most(|batch| batch.lacking),
                    "the largest shortfall is what a failed batch lacked by the store that it read",
                ),
            ])
        })
    }

    /// Whether this answer may come after that one, of the schedule without its last entry, by the shortfalls: a number
    /// changes only where the entry makes such a batch fail, and then to more, from 1 to the batch's size.
    pub fn follows(&self, before: &Answer, file: &RunFile, schedule: &[u8]) -> bool {
        let fails = self.marks.last() == Some(&performed::BATCH_FAILED);
        let last = failed(file, &self.marks, schedule).pop();
        [PRODUCER, CONSUMER].into_iter().all(|core| {
            let (now, least) = (self.shortfall(core), before.shortfall(core));
            match &last {
                Some(batch) if fails && batch.core == core => {
                    (least.max(1)..=least.max(batch.size)).contains(&now)
                }
                _ => now == least,
            }
        })
    }

    /// The first promise that the answer breaks. With all orders strong nothing races; and until something does,
    /// the occupancy is the bytes pushed less those popped and at most m, and out has the pushed bytes in order.
    pub fn broken(&self, file: &RunFile, schedule: &[u8]) -> Option<&'static str> {
        let [pushed, popped, occupancy] = [
            report::COMPLETED_BYTES,
            report::COMPLETED_BYTES + 1,
            report::OCCUPANCY,
        ]
        .map(|place| self.numbers[place]);
        let race = [report::RACE, report::RACE_PARTNER].map(|place| self.numbers[place]);
        let bytes = self.pushed(file, schedule);
        let strong = file.orders == MOST_ORDERS;
        let halted = self.raced() || self.marks.contains(&refused::HALTED);
        first_broken(&[
            (self.code == 0, "a lawful file is played"),
            (!strong || !halted, "with strong orders nothing races"),
            (
                (race != [0, 0]) == self.raced(),
                "a race is reported where one is marked",
            ),
            (
                occupancy + popped == pushed,
                "the occupancy is the bytes pushed less those popped",
            ),
            (occupancy <= file.m, "the occupancy is at most m"),
            (
                bytes.len() == pushed as usize,
                "the bytes pushed are those of the completed pushes",
            ),
            (
                popped as usize <= self.out.len(),
                "out has the bytes of completed pops",
            ),
            (
                bytes.starts_with(&self.out),
                "out is the first bytes of the completed pushes",
            ),
            (
                !goes_back(&self.marks, schedule),
                "no core reads an older store of an index after a newer one",
            ),
        ])
        .or_else(|| self.broken_shortfall(file, schedule))
    }
}

/// The first sentence that does not hold.
fn first_broken(sentences: &[(bool, &'static str)]) -> Option<&'static str> {
    let broken = sentences.iter().find(|(holds, _)| !holds);
    broken.map(|(_, sentence)| *sentence)
}

#[cfg(test)]
mod tests {
    use super::*;

    /// R1 of the document, with its answer.
    fn worked(orders: u8) -> (RunFile, Vec<u8>, Answer) {
        let file = RunFile {
            m: 1,
            modulus: 2,
            orders,
            sizes: [vec![1], vec![1]],
            bytes: vec![65],
            schedule: Vec::new(),
        };
        let answer = Answer {
            code: 0,
            marks: vec![1, 4, 6, 1, 2, 5, 6],
            out: vec![65],
            numbers: vec![7, 0, 1, 1, 1, 0, 0, 0, 0, 0, 0, 0],
        };
        let schedule = [[0, 0].repeat(3), [1, 0].repeat(4)].concat();
        (file, schedule, answer)
    }

    /// The sentence broken once R1's answer is changed.
    fn broken(change: impl Fn(&mut Answer)) -> Option<&'static str> {
        let (file, schedule, mut answer) = worked(MOST_ORDERS);
        change(&mut answer);
        answer.broken(&file, &schedule)
    }

    #[test]
    fn each_promise_can_be_broken() {
        assert_eq!(broken(|_| ()), None);
        let word = |sentence: Option<&str>, word| assert!(sentence.unwrap().contains(word));
        word(broken(|answer| answer.code = 3), "lawful");
        word(
            broken(|answer| answer.marks[5] = performed::RACE),
            "nothing races",
        );
        word(
            broken(|answer| answer.numbers[report::RACE] = 6),
            "is reported",
        );
        word(
            broken(|answer| answer.numbers[report::OCCUPANCY] = 1),
            "less those popped",
        );
        word(broken(|answer| answer.out[0] = 66), "first bytes");
        let full = |answer: &mut Answer| {
            answer.numbers[report::COMPLETED_BYTES] = 3;
            answer.numbers[report::OCCUPANCY] = 2;
        };
        word(broken(full), "at most m");
        let more = |answer: &mut Answer| {
            answer.numbers[report::COMPLETED_BYTES] = 2;
            answer.numbers[report::OCCUPANCY] = 1;
        };
        word(broken(more), "completed pushes");
        word(broken(|answer| answer.out.clear()), "completed pops");
        let short = |answer: &mut Answer| answer.numbers[report::SHORTFALL] = 1;
        word(broken(short), "where a batch failed");
    }

    /// R7 of the document, a push of 2 into a ring of 1, with its answer.
    fn worked_failing() -> (RunFile, Vec<u8>, Answer) {
        let (mut file, _, mut answer) = worked(MOST_ORDERS);
        file.sizes = [vec![2], vec![]];
        file.bytes = vec![65, 66];
        answer.marks = vec![1, 3];
        answer.out.clear();
        answer.numbers = vec![2, 0, 0, 0, 0, 0, 1, 0, 0, 0, 1, 0];
        (file, vec![0, 0, 0, 0], answer)
    }

    /// The sentence broken where R7 reports this shortfall, in a ring of so many slots.
    fn broken_by(shortfall: u32, m: u32) -> Option<&'static str> {
        let (mut file, schedule, mut answer) = worked_failing();
        file.m = m;
        answer.numbers[report::SHORTFALL] = shortfall;
        answer.broken(&file, &schedule)
    }

    #[test]
    fn each_promise_about_shortfalls_can_be_broken() {
        assert_eq!(broken_by(1, 1), None);
        let word = |sentence: Option<&str>, word| assert!(sentence.unwrap().contains(word));
        word(broken_by(0, 1), "where a batch failed");
        word(broken_by(3, 1), "more than its size");
        word(broken_by(2, 1), "largest");
        word(broken_by(1, 2), "lacks bytes");
    }

    #[test]
    fn a_core_that_goes_back_breaks_a_promise() {
        let (mut file, mut schedule, mut answer) = worked_failing();
        file.sizes = [vec![0], vec![2, 2]];
        file.bytes.clear();
        schedule.extend([1, 0, 1, 0, 1, 0, 1, 1]);
        answer.marks = vec![1, 6, 1, 3, 1, 3];
        answer.numbers = vec![6, 0, 0, 0, 0, 0, 0, 2, 0, 0, 0, 2];
        let broken = answer.broken(&file, &schedule);
        assert!(broken.unwrap().contains("after a newer one"));
        schedule[11] = 0;
        assert_eq!(answer.broken(&file, &schedule), None);
    }

    #[test]
    fn a_shortfall_grows_by_a_failed_batch_and_no_further_than_its_size() {
        let (file, schedule, after) = worked_failing();
        let follows = |before, now| {
            let with = |shortfall| {
                let mut answer = after.clone();
                answer.numbers[report::SHORTFALL] = shortfall;
                answer
            };
            with(now).follows(&with(before), &file, &schedule)
        };
        let lawful = [(0, 1), (0, 2), (1, 1), (1, 2), (2, 2), (3, 3)];
        for (before, now) in (0..4).flat_map(|before| (0..5).map(move |now| (before, now))) {
            let expected = lawful.contains(&(before, now));
            assert_eq!(follows(before, now), expected, "{before} then {now}");
        }
        let mut pops = after.clone();
        pops.numbers[report::SHORTFALL + 1] = 1;
        assert!(!pops.follows(&after, &file, &schedule));
    }
}
