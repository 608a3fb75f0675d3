//! What a comparison of some size must have seen to count: floors under the tally, by files unless it says calls.

use crate::file::MOST_ORDERS;
use crate::tally::{all_marks, Tally, LENGTHS, REPORTS, WRAPS};

struct Floor {
    what: String,
    seen: u64,
    least: u64,
}

/// For each code, mark, setting, greatest value, and every choice of short buffers.
const EACH: u64 = 1_000;
/// For what is counted by weaker settings.
const EACH_WEAKER: u64 = 100;
/// For ten times round, which takes many batches.
const OFTEN_ROUND: u64 = 500;
/// For each length about the longest file, which takes long to play.
const LONGEST: u64 = 100;

fn floors(tally: &Tally) -> Vec<Floor> {
    let mut floors = Vec::new();
    let mut each = |what: String, seen: u64, least: u64| floors.push(Floor { what, seen, least });
    for (code, &files) in tally.codes.iter().enumerate() {
        each(format!("code {code}"), files, EACH);
    }
    for mark in all_marks() {
        each(format!("mark {mark}"), tally.files_with[mark], EACH);
    }
    for (bits, &files) in tally.settings.iter().enumerate() {
        each(format!("order bits {bits}"), files, EACH);
    }
    each("m = 128".into(), tally.greatest_ring, EACH);
    each("M = 65,536".into(), tally.greatest_modulus, EACH);
    for (core, name) in ["producer", "consumer"].iter().enumerate() {
        let completed = tally.all_completed[core];
        each(
            format!("the {name}'s 255th completed batch"),
            completed,
            EACH,
        );
        let oldest = tally.oldest_loads[core];
        each(
            format!("the {name}'s foreign load at age 255"),
            oldest,
            EACH,
        );
        let [both, coherence, _] = tally.hidden_by[core];
        for (files, what) in [
            (both, "hidden from it by both rules"),
            (coherence, "hidden from it by coherence alone"),
            (tally.read_again[core], "that is older read again"),
            (tally.read_behind[core], "behind the other core's"),
        ] {
            each(format!("for the {name}, a store {what}"), files, EACH);
        }
    }
    for (bits, &files) in tally
        .coherence
        .iter()
        .enumerate()
        .take(usize::from(MOST_ORDERS))
    {
        let what = format!("order bits {bits} with a store hidden by coherence alone");
        each(what, files, EACH_WEAKER);
    }
    for (index, wraps) in ["back", "front"].iter().zip(tally.wraps) {
        for (files, times) in wraps.into_iter().zip(WRAPS) {
            let least = if times < 10 { EACH } else { OFTEN_ROUND };
            each(
                format!("{index} wrapping {times} times or more"),
                files,
                least,
            );
        }
    }
    for (core, name) in ["push", "pop"].iter().enumerate() {
        for (files, what) in [
            (tally.short_by_more, "failing by more than 1"),
            (
                tally.short_by_less,
                "failing by less than the largest before it",
            ),
            (
                tally.short_at_first,
                "failing with another largest shortfall before the reload",
            ),
        ] {
            each(format!("a {name} {what}"), files[core], EACH);
        }
    }
    let both = "a push and a pop failing, with different largest shortfalls";
    each(both.into(), tally.both_short, EACH);
    for (files, length) in tally.lengths.into_iter().zip(LENGTHS) {
        each(format!("a file of {length} bytes"), files, LONGEST);
    }
    for (short, &calls) in tally.short.iter().enumerate() {
        let what = format!("a call with short buffers {short} (marks 1, out 2, report 4)");
        each(what, calls, EACH);
    }
    for (calls, length) in tally.reports.into_iter().zip(REPORTS) {
        each(
            format!("a call with a report of {length} bytes, the rest long enough"),
            calls,
            EACH,
        );
    }
    for (code, &files) in tally.race.codes.iter().enumerate() {
        let what = format!("code {code} where it is asked only whether a file races");
        each(what, files, EACH);
    }
    for (name, files) in ["producer", "consumer"].iter().zip(tally.race.by) {
        each(format!("a race of the {name}'s"), files, EACH);
    }
    each("a lawful file without a race".into(), tally.race.none, EACH);
    for (pointer, calls) in ["its address", "a null pointer"].iter().zip(tally.empty) {
        each(
            format!("a call with an empty buffer lent as {pointer}"),
            calls,
            EACH,
        );
    }
    floors
}

/// A sentence for each thing that was seen and cannot be. A store of the other core happens before a load only by way of an
/// earlier load, of that store or of a later one: so what axiom 2 hides, coherence hides too. With all orders strong every such
/// load is an acquire load of a release store, so there what coherence hides, axiom 2 hides too.
pub fn impossible(tally: &Tally) -> Vec<String> {
    let [producer, consumer] = tally.hidden_by.map(|[_, _, axiom_2]| axiom_2);
    let strong = tally.coherence[usize::from(MOST_ORDERS)];
    [
        ("a store hidden by axiom 2 alone", producer + consumer),
        (
            "strong orders with a store hidden by coherence alone",
            strong,
        ),
    ]
    .into_iter()
    .filter(|(_, files)| *files > 0)
    .map(|(what, files)| format!("{what} was seen in {files} files, and cannot be"))
    .collect()
}

/// How many floors there are, and a sentence for each that was missed.
pub fn missed(tally: &Tally) -> (usize, Vec<String>) {
    let floors = floors(tally);
    let sentences = floors
        .iter()
        .filter(|floor| floor.seen < floor.least)
        .map(|Floor { what, seen, least }| {
            format!("{what} was seen {seen} times, fewer than {least}")
        })
        .collect();
    (floors.len(), sentences)
}

#[cfg(test)]
mod tests {
    use super::*;

    #[test]
    fn an_empty_tally_misses_every_floor() {
        let (floors, missed) = missed(&Tally::new());
        assert_eq!(floors, missed.len());
        assert!(missed.contains(&"mark 133 was seen 0 times, fewer than 1000".to_string()));
        assert!(missed.contains(&"code 11 was seen 0 times, fewer than 1000".to_string()));
    }

    #[test]
    fn what_cannot_be_is_told() {
        let mut tally = Tally::new();
        tally.hidden_by = [[5, 5, 0]; 2];
        tally.coherence = [1; 16];
        tally.coherence[15] = 0;
        assert!(impossible(&tally).is_empty());
        tally.hidden_by[1][2] = 1;
        tally.coherence[15] = 2;
        let expected = [
            "a store hidden by axiom 2 alone was seen in 1 files, and cannot be",
            "strong orders with a store hidden by coherence alone was seen in 2 files, and cannot be",
        ];
        assert_eq!(impossible(&tally), expected);
    }

    #[test]
    fn a_floor_is_met_from_its_number_on() {
        let mut tally = Tally::new();
        tally.files_with[133] = EACH - 1;
        let before = missed(&tally).1.len();
        tally.files_with[133] = EACH;
        assert_eq!(missed(&tally).1.len(), before - 1);
    }
}
