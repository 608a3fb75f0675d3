//! A call of the library on buffers that end at an unreadable page, held against what is expected of it.

use crate::file::{read, Lent, MOST_BYTES, REPORT_BYTES};
use crate::lend::{needs, Lending, MOST_MORE, NAMES};
use crate::library;
use crate::print::{Played, MOST_OUT};
use crate::race::Race;
use crate::system::{end_after, map_before_guard, NEVER};
use std::io;

/// Bytes looked at before the start of each buffer.
const MARGIN: usize = 64;

/// A call that takes longer is taken for one that never returns.
pub const CALL_SECONDS: u32 = 5;

/// Longest file that is lent.
const MOST_FILE: usize = 2 * MOST_BYTES;

/// Memory that ends at an unreadable page.
struct Guarded {
    end: *mut u8,
    bytes: usize,
}

impl Guarded {
    fn new(most: usize) -> io::Result<Self> {
        let bytes = MARGIN + most;
        Ok(Guarded {
            end: map_before_guard(bytes)?,
            bytes,
        })
    }

    /// The margin and the last `length` bytes before the unreadable page.
    fn last(&mut self, length: usize) -> &mut [u8] {
        let length = MARGIN + length;
        assert!(length <= self.bytes);
        // SAFETY: so many bytes before the end are mapped, and only this value's borrow reaches them.
        unsafe { std::slice::from_raw_parts_mut(self.end.sub(length), length) }
    }
}

/// One process's buffers: the file, then marks, out and report.
pub struct Desk {
    file: Guarded,
    buffers: [Guarded; 3],
}

/// What the library answered and left in the buffers, a margin before each.
pub struct Returned<'d> {
    pub code: u32,
    file: &'d [u8],
    buffers: [&'d [u8]; 3],
}

impl Returned<'_> {
    /// Marks, out or report as they were left.
    pub fn buffer(&self, buffer: usize) -> &[u8] {
        &self.buffers[buffer][MARGIN..]
    }
}

impl Desk {
    pub fn new() -> io::Result<Self> {
        Ok(Desk {
            file: Guarded::new(MOST_FILE)?,
            buffers: [
                Guarded::new(MOST_BYTES / 2 + MOST_MORE)?,
                Guarded::new(MOST_OUT + MOST_MORE)?,
                Guarded::new(REPORT_BYTES + MOST_MORE)?,
            ],
        })
    }

    /// Calls the library on a file, with buffers filled and as long as the lending says.
    pub fn call(&mut self, file: &[u8], lending: &Lending, lent: Lent) -> Returned<'_> {
        let [marks, out, report] = &mut self.buffers;
        let mut buffers = [
            marks.last(lent.marks),
            out.last(lent.out),
            report.last(lent.report),
        ];
        for (buffer, bytes) in buffers.iter_mut().enumerate() {
            for (place, byte) in bytes.iter_mut().enumerate() {
                *byte = lending.filled(buffer, place);
            }
        }
        let [marks, out, report] = &mut buffers;
        let lent_file = self.file.last(file.len());
        lent_file[MARGIN..].copy_from_slice(file);
        end_after(CALL_SECONDS);
        let code = library::run(
            &mut lent_file[MARGIN..],
            [
                &mut marks[MARGIN..],
                &mut out[MARGIN..],
                &mut report[MARGIN..],
            ],
            lending.null,
        );
        end_after(NEVER);
        Returned {
            code,
            file: lent_file,
            buffers: buffers.map(|buffer| &*buffer),
        }
    }
}

impl Desk {
    /// Asks the library only whether and where a file races. Answers that, and whether the file is still the same.
    fn race(&mut self, file: &[u8], null: bool) -> (u64, bool) {
        let lent = &mut self.file.last(file.len())[MARGIN..];
        lent.copy_from_slice(file);
        end_after(CALL_SECONDS);
        let answer = library::race(lent, null);
        end_after(NEVER);
        (answer, lent == file)
    }
}

/// The code that a file must get with these buffers, and what then stands at the start of each.
pub struct Expected {
    pub code: u8,
    pub written: [Vec<u8>; 3],
}

impl Expected {
    pub fn new(file: &[u8], played: &Played, lent: Lent) -> Self {
        let code = read(file, lent).err().unwrap_or(0);
        let written = match code {
            0 => [played.marks.clone(), played.out.clone(), played.report()],
            _ => Default::default(),
        };
        Expected { code, written }
    }

    /// The first thing in which the library's answer is another, in words.
    pub fn difference(&self, file: &[u8], lending: &Lending, there: &Returned) -> Option<String> {
        if there.code != u32::from(self.code) {
            return Some(format!("code {} here, {} there", self.code, there.code));
        }
        if &there.file[MARGIN..] != file {
            return Some("the file was changed".to_string());
        }
        (0..3).find_map(|buffer| self.in_buffer(buffer, lending, there.buffers[buffer]))
    }

    /// A whole buffer, its margin too, as it must be left.
    fn left(&self, buffer: usize, lending: &Lending, bytes: usize) -> Vec<u8> {
        let mut left: Vec<u8> = (0..bytes)
            .map(|place| lending.filled(buffer, place))
            .collect();
        let written = &self.written[buffer];
        left[MARGIN..MARGIN + written.len()].copy_from_slice(written);
        left
    }

    fn in_buffer(&self, buffer: usize, lending: &Lending, there: &[u8]) -> Option<String> {
        let here = self.left(buffer, lending, there.len());
        if here == there {
            return None;
        }
        let place = (0..there.len()).find(|&place| here[place] != there[place])?;
        let (here, there) = (here[place], there[place]);
        let at = place as i64 - MARGIN as i64;
        let kind = match at {
            at if at < 0 => " (before its start)",
            at if at >= self.written[buffer].len() as i64 => " (to be left as it was)",
            _ => "",
        };
        let name = NAMES[buffer];
        Some(format!(
            "{name}, place {at}{kind}: {here} here, {there} there"
        ))
    }
}

/// Calls the library once and answers the first difference, in words.
pub fn differs(desk: &mut Desk, file: &[u8], played: &Played, lending: &Lending) -> Option<String> {
    let lent = lending.lent(needs(file));
    let there = desk.call(file, lending, lent);
    Expected::new(file, played, lent).difference(file, lending, &there)
}

/// Asks the library once only whether and where a file races, and answers the first difference, in words.
pub fn race_differs(desk: &mut Desk, file: &[u8], played: &Played, null: bool) -> Option<String> {
    let (answer, unchanged) = desk.race(file, null);
    if !unchanged {
        return Some("race: the file was changed".to_string());
    }
    Race::of(played).difference(answer)
}

#[cfg(test)]
mod tests {
    use super::*;
    use crate::lend::Length;
    use crate::print::play;

    /// R1 of the document, with byte 65 to push.
    fn worked() -> Vec<u8> {
        let mut file = vec![1, 2, 0, 0, 0, 15, 1, 1, 1, 1, 65];
        file.extend([0, 0].repeat(3));
        file.extend([1, 0].repeat(4));
        file
    }

    const LENDING: Lending = Lending {
        lengths: [Length::Longer(3); 3],
        null: false,
        fill: 7,
    };

    /// What is said once the buffers that the library left are changed.
    fn said(change: impl Fn(&mut [Vec<u8>; 3])) -> Option<String> {
        let file = worked();
        let lent = LENDING.lent(needs(&file));
        let expected = Expected::new(&file, &play(&file), lent);
        let mut desk = Desk::new().unwrap();
        let there = desk.call(&file, &LENDING, lent);
        let mut buffers = there.buffers.map(<[u8]>::to_vec);
        change(&mut buffers);
        let changed = Returned {
            buffers: [&buffers[0], &buffers[1], &buffers[2]],
            ..there
        };
        expected.difference(&file, &LENDING, &changed)
    }

    #[test]
    fn every_byte_is_looked_at() {
        assert_eq!(said(|_| ()), None);
        let at = |buffer: usize, place: usize| said(|buffers| buffers[buffer][place] ^= 1).unwrap();
        assert!(at(0, 0).starts_with("marks, place -64 (before its start)"));
        assert_eq!(at(0, MARGIN + 6), "marks, place 6: 6 here, 7 there");
        assert!(at(0, MARGIN + 7).starts_with("marks, place 7 (to be left as it was)"));
        assert_eq!(at(1, MARGIN), "out, place 0: 65 here, 64 there");
        let last = REPORT_BYTES + 2;
        assert!(at(2, MARGIN + last).starts_with(&format!("report, place {last} (to be left")));
    }
}
