//! What `runlist` has to print for a file.

use crate::call::call;
use crate::file::{MOST_BYTES, REPORT_BYTES};
use crate::machine::{report, Inside};

/// Most bytes that 255 pops of 255 can read.
pub const MOST_OUT: usize = 255 * 255;

/// A played file: the code, and for code 0 the report's numbers, the marks and the bytes read.
#[derive(Default)]
pub struct Played {
    pub code: u8,
    pub numbers: Vec<u32>,
    pub marks: Vec<u8>,
    pub out: Vec<u8>,
    pub inside: Inside,
}

/// The numbers that a report's bytes stand for.
pub fn numbers(report: &[u8]) -> Vec<u32> {
    report
        .chunks(4)
        .map(|four| u32::from_le_bytes([four[0], four[1], four[2], four[3]]))
        .collect()
}

/// Plays a file with buffers that are never too short.
pub fn play(file: &[u8]) -> Played {
    let (mut marks, mut out) = (vec![0; MOST_BYTES / 2], vec![0; MOST_OUT]);
    let mut written = [0; REPORT_BYTES];
    let inside = match call(file, &mut marks, &mut out, &mut written) {
        Ok(inside) => inside,
        Err(code) => {
            return Played {
                code,
                ..Played::default()
            }
        }
    };
    let numbers = numbers(&written);
    // Every entry is performed or refused; every data load made wrote one byte.
    marks.truncate((numbers[0] + numbers[1]) as usize);
    out.truncate(numbers[report::DATA_LOADS] as usize);
    Played {
        code: 0,
        numbers,
        marks,
        out,
        inside,
    }
}

fn line<T: ToString>(list: &[T]) -> String {
    list.iter().map(T::to_string).collect::<Vec<_>>().join(" ") + "\n"
}

impl Played {
    /// The report's bytes; none for a refused file.
    #[cfg(feature = "library")]
    pub fn report(&self) -> Vec<u8> {
        self.numbers.iter().flat_map(|n| n.to_le_bytes()).collect()
    }

    /// One line for a refused file, four for any other.
    pub fn text(&self) -> String {
        let mut text = format!("code {}\n", self.code);
        if self.code == 0 {
            text += &line(&self.numbers);
            text += &line(&self.marks);
            text += &line(&self.out);
        }
        text
    }
}

#[cfg(test)]
mod tests {
    use super::*;

    #[test]
    fn the_printed_example() {
        let mut file = vec![1, 2, 0, 0, 0, 0x0F, 1, 1, 1, 1, 0x41];
        file.extend([0, 0].repeat(3));
        file.extend([1, 0].repeat(4));
        assert_eq!(
            play(&file).text(),
            "code 0\n7 0 1 1 1 0 0 0 0 0 0 0\n1 4 6 1 2 5 6\n65\n"
        );
    }

    #[test]
    fn empty_lists_are_empty_lines_and_a_refused_file_is_one_line() {
        assert_eq!(
            play(&[1, 2, 0, 0, 0, 15, 0, 0]).text(),
            "code 0\n0 0 0 0 0 0 0 0 0 0 0 0\n\n\n"
        );
        assert_eq!(play(&[]).text(), "code 1\n");
    }
}
