//! A whole call: a run file and three lent buffers.

use crate::file::{read, Lent};
use crate::machine::{Inside, Machine};

/// Plays the file, or answers the code that refuses it, and then nothing is written. Bytes past what is written stay.
pub fn call(
    file: &[u8],
    marks: &mut [u8],
    out: &mut [u8],
    report: &mut [u8],
) -> Result<Inside, u8> {
    let lent = Lent {
        marks: marks.len(),
        out: out.len(),
        report: report.len(),
    };
    let file = read(file, lent)?;
    let mut machine = Machine::new(&file);
    for (mark, &entry) in marks.iter_mut().zip(&file.schedule) {
        *mark = machine.play(entry);
    }
    out[..machine.out().len()].copy_from_slice(machine.out());
    let written = machine.report();
    report[..written.len()].copy_from_slice(&written);
    Ok(machine.inside())
}

#[cfg(test)]
mod tests {
    use super::*;
    use crate::file::REPORT_BYTES;

    /// A schedule in the document's words, as "P0x3 C1"; core 2 is written X.
    fn schedule(words: &str) -> Vec<u8> {
        let mut entries = Vec::new();
        for word in words.split(' ') {
            let (one, times) = word.split_once('x').unwrap_or((word, "1"));
            let core = "PCX".find(&one[..1]).unwrap() as u8;
            for _ in 0..times.parse().unwrap() {
                entries.extend([core, one[1..].parse().unwrap()]);
            }
        }
        entries
    }

    /// Plays a run with m=1, M=2 and answers its marks and its report's numbers.
    fn play(orders: u8, pushes: &[u8], pops: &[u8], words: &str) -> (Vec<u8>, Vec<u32>) {
        let mut file = vec![1, 2, 0, 0, 0, orders, pushes.len() as u8, pops.len() as u8];
        file.extend(pushes);
        file.extend(pops);
        file.extend((65..).take(pushes.iter().map(|&size| usize::from(size)).sum()));
        let entries = schedule(words);
        file.extend(&entries);
        let mut marks = vec![0; entries.len() / 2];
        let mut report = [0; REPORT_BYTES];
        assert!(call(&file, &mut marks, &mut [0; 512], &mut report).is_ok());
        let numbers = report
            .chunks(4)
            .map(|four| u32::from_le_bytes(four.try_into().unwrap()));
        (marks, numbers.collect())
    }

    #[test]
    fn runs_worked_by_hand() {
        type Run<'a> = (u8, &'a [u8], &'a [u8], &'a str, &'a [u8]);
        let runs: [Run; 9] = [
            (15, &[1], &[1], "P0x3 C0x4", &[1, 4, 6, 1, 2, 5, 6]),
            (13, &[1], &[1], "P0x3 C0x4", &[1, 4, 6, 1, 2, 7, 130]),
            (15, &[1], &[1], "P0x3 C0 C1", &[1, 4, 6, 1, 3]),
            (
                15,
                &[1],
                &[1, 1],
                "P0x3 C0x5 C1 C0",
                &[1, 4, 6, 1, 2, 5, 6, 1, 134, 3],
            ),
            (
                14,
                &[1, 1],
                &[1],
                "P0x3 C0x4 P0x3",
                &[1, 4, 6, 1, 2, 5, 6, 1, 2, 7],
            ),
            (
                15,
                &[1, 1],
                &[1, 1],
                "P0x3 C0x4 P0x4 C0x4",
                &[1, 4, 6, 1, 2, 5, 6, 1, 2, 4, 6, 1, 2, 5, 6],
            ),
            (15, &[2], &[], "P0x2", &[1, 3]),
            (15, &[0], &[0], "P0x2 C0x2", &[1, 6, 1, 6]),
            (
                15,
                &[2],
                &[],
                "P1 P0 P1 P0 P0 X0",
                &[132, 1, 133, 3, 131, 129],
            ),
        ];
        let played = runs.map(|(orders, pushes, pops, words, marks)| {
            let (played, numbers) = play(orders, pushes, pops, words);
            assert_eq!(played, marks, "{words}");
            numbers
        });
        assert_eq!(played[0], [7, 0, 1, 1, 1, 0, 0, 0, 0, 0, 0, 0]);
        assert_eq!(played[1][8..10], [6, 2]);
        assert_eq!(played[4][8..10], [10, 6]);
        assert_eq!((played[5][2], played[5][3], played[5][5]), (2, 2, 0));
        // R3 and R4 fail with an empty ring, R7 and R9 with one too small: by one byte each.
        let missing = played.map(|numbers| [numbers[10], numbers[11]]);
        let none = [0, 0];
        let expected = [none, none, [0, 1], [0, 1], none, none, [1, 0], none, [1, 0]];
        assert_eq!(missing, expected);
    }

    #[test]
    fn a_core_never_goes_back_to_an_older_store() {
        type Run<'a> = (u8, &'a [u8], &'a [u8], &'a str, &'a [u8]);
        let runs: [Run; 4] = [
            // A relaxed load hides older stores from later ones, of the consumer and of the producer.
            (
                11,
                &[1],
                &[2, 2],
                "P0x3 C0x3 C1 C0",
                &[1, 4, 6, 1, 3, 1, 134, 3],
            ),
            (
                14,
                &[2, 2],
                &[0],
                "C0x2 P0x3 P1 P0",
                &[1, 6, 1, 3, 1, 134, 3],
            ),
            // The same store may be read again.
            (
                11,
                &[1],
                &[2, 2],
                "P0x3 C0 C1 C0 C1",
                &[1, 4, 6, 1, 3, 1, 3],
            ),
            // What one core has read hides nothing from the other.
            (
                0,
                &[0, 2],
                &[0, 2],
                "P0x2 C0x4 P0 P1",
                &[1, 6, 1, 6, 1, 3, 1, 3],
            ),
        ];
        for (orders, pushes, pops, words, marks) in runs {
            assert_eq!(play(orders, pushes, pops, words).0, marks, "{words}");
        }
    }

    #[test]
    fn the_largest_shortfall_is_reported_and_not_the_latest() {
        // A full ring: pushes of 3 and 1 lack 3 bytes and 1. An empty one then: pops of 4 and 2 lack all their bytes.
        let (marks, numbers) = play(15, &[1, 3, 1], &[1, 4, 2], "P0x7 C0x4 C0x4");
        assert_eq!(marks, [1, 4, 6, 1, 3, 1, 3, 1, 2, 5, 6, 1, 3, 1, 3]);
        assert_eq!(numbers[6..], [2, 2, 0, 0, 3, 4]);
    }

    #[test]
    fn a_shortfall_is_measured_after_the_reload() {
        // A push of 3 into a ring of 1: full by the cached front, empty by the one that is loaded.
        let (marks, numbers) = play(15, &[1, 3], &[1], "P0x3 C0x4 P0x2");
        assert_eq!(marks, [1, 4, 6, 1, 2, 5, 6, 1, 3]);
        assert_eq!(numbers[10..], [2, 0]);
    }

    #[test]
    fn a_refused_file_writes_nothing() {
        let (mut marks, mut out, mut report) = ([9; 1], [9; 1], [9; 47]);
        let file = [1, 2, 0, 0, 0, 15, 0, 0];
        let code = call(&file, &mut marks, &mut out, &mut report).err();
        assert_eq!(code, Some(11));
        assert_eq!((marks, out, report), ([9; 1], [9; 1], [9; 47]));
    }

    #[test]
    fn bytes_past_what_is_written_stay() {
        let (mut marks, mut out, mut report) = ([9; 2], [9; 1], [9; 49]);
        let file = [1, 2, 0, 0, 0, 15, 0, 0, 0, 0];
        assert!(call(&file, &mut marks, &mut out, &mut report).is_ok());
        assert_eq!((marks, out, report[48]), ([131, 9], [9], 9));
    }
}
