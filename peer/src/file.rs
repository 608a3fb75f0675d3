//! The run file, and the code that a file and the lengths of three lent buffers get.

pub const MOST_BYTES: usize = 65_536;
pub const MOST_SLOTS: u8 = 128;
pub const MOST_MODULUS: u32 = 65_536;
pub const MOST_ORDERS: u8 = 15;
/// Numbers of a report, each of four bytes.
pub const REPORT_NUMBERS: usize = 12;
pub const REPORT_BYTES: usize = 4 * REPORT_NUMBERS;
/// Bytes before the batch sizes.
pub const HEAD: usize = 8;

/// One entry of the schedule, as it stands in the file.
#[derive(Clone, Copy, Debug, PartialEq)]
pub struct Entry {
    pub core: u8,
    pub age: u8,
}

/// A lawful run file, taken apart.
#[derive(Clone, Debug)]
pub struct RunFile {
    pub m: u32,
    pub modulus: u32,
    pub orders: u8,
    /// Batch sizes: those of the pushes, then those of the pops.
    pub sizes: [Vec<u8>; 2],
    pub bytes: Vec<u8>,
    pub schedule: Vec<Entry>,
}

/// Lengths of the three lent buffers.
#[derive(Clone, Copy)]
pub struct Lent {
    pub marks: usize,
    pub out: usize,
    pub report: usize,
}

/// Buffers that are too short for no file.
pub const ENOUGH: Lent = Lent {
    marks: usize::MAX,
    out: usize::MAX,
    report: usize::MAX,
};

fn sum(sizes: &[u8]) -> usize {
    sizes.iter().map(|&size| usize::from(size)).sum()
}

/// The file taken apart, or the code that refuses it: the first that applies, in the order of the table.
pub fn read(file: &[u8], lent: Lent) -> Result<RunFile, u8> {
    if file.len() < HEAD {
        return Err(1);
    }
    if file.len() > MOST_BYTES {
        return Err(2);
    }
    let (m, orders) = (file[0], file[5]);
    let modulus = u32::from_le_bytes([file[1], file[2], file[3], file[4]]);
    if m == 0 || m > MOST_SLOTS {
        return Err(3);
    }
    if !(2..=MOST_MODULUS).contains(&modulus) {
        return Err(4);
    }
    let m = u32::from(m);
    if modulus % m != 0 || modulus == m {
        return Err(5);
    }
    if orders > MOST_ORDERS {
        return Err(6);
    }
    let (p, c) = (usize::from(file[6]), usize::from(file[7]));
    let pushes = file.get(HEAD..HEAD + p).ok_or(7)?;
    let pops = file.get(HEAD + p..HEAD + p + c).ok_or(7)?;
    let start = HEAD + p + c;
    let end = start + sum(pushes);
    let bytes = file.get(start..end).ok_or(7)?;
    let schedule = &file[end..];
    if schedule.len() % 2 != 0 {
        return Err(8);
    }
    if lent.marks < schedule.len() / 2 {
        return Err(9);
    }
    if lent.out < sum(pops) {
        return Err(10);
    }
    if lent.report < REPORT_BYTES {
        return Err(11);
    }
    Ok(RunFile {
        m,
        modulus,
        orders,
        sizes: [pushes.to_vec(), pops.to_vec()],
        bytes: bytes.to_vec(),
        schedule: schedule
            .chunks(2)
            .map(|pair| Entry {
                core: pair[0],
                age: pair[1],
            })
            .collect(),
    })
}

impl RunFile {
    /// The bytes of a file that reads as this one (`read` turns it back where the parts are lawful).
    pub fn write(&self) -> Vec<u8> {
        let mut file = vec![self.m as u8];
        file.extend(self.modulus.to_le_bytes());
        file.extend([
            self.orders,
            self.sizes[0].len() as u8,
            self.sizes[1].len() as u8,
        ]);
        file.extend(&self.sizes[0]);
        file.extend(&self.sizes[1]);
        file.extend(&self.bytes);
        file.extend(
            self.schedule
                .iter()
                .flat_map(|entry| [entry.core, entry.age]),
        );
        file
    }
}

#[cfg(test)]
mod tests {
    use super::*;

    fn code(file: &[u8], lent: Lent) -> u8 {
        read(file, lent).err().unwrap_or(0)
    }

    fn head(m: u8, modulus: u32) -> Vec<u8> {
        let mut file = vec![m];
        file.extend(modulus.to_le_bytes());
        file.extend([15, 0, 0]);
        file
    }

    #[test]
    fn sizes_that_the_document_names() {
        for (m, modulus, expected) in [
            (128, 256, 0),
            (3, 6, 0),
            (128, 65_536, 0),
            (129, 258, 3),
            (1, 1, 4),
            (1, 65_537, 4),
            (3, 3, 5),
            (3, 4, 5),
        ] {
            assert_eq!(
                code(&head(m, modulus), ENOUGH),
                expected,
                "m={m} M={modulus}"
            );
        }
    }

    #[test]
    fn eight_bytes_are_lawful_and_seven_are_not() {
        assert_eq!(code(&head(1, 2), ENOUGH), 0);
        assert_eq!(code(&head(1, 2)[..7], ENOUGH), 1);
    }

    #[test]
    fn short_buffers_in_their_order() {
        // One pop of 2 bytes and one entry.
        let mut file = head(1, 2);
        file[7] = 1;
        file.extend([2, 1, 0]);
        let lent = |marks, out, report| code(&file, Lent { marks, out, report });
        assert_eq!(lent(0, 1, 47), 9);
        assert_eq!(lent(1, 1, 47), 10);
        assert_eq!(lent(1, 2, 47), 11);
        assert_eq!(lent(1, 2, 48), 0);
    }
}
