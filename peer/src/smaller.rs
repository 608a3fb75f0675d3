//! Makes a file smaller as long as what was found in it stays.

use crate::file::{read, Entry, RunFile, ENOUGH};
use crate::machine::Machine;

/// Asks of a file, so many times at most, whether what was found is still there.
struct Asker<F> {
    tries: u32,
    stays: F,
}

impl<F: Fn(&[u8]) -> bool> Asker<F> {
    fn stays(&mut self, file: &[u8]) -> bool {
        if self.tries == 0 {
            return false;
        }
        self.tries -= 1;
        (self.stays)(file)
    }

    /// Takes a changed file where what was found stays.
    fn take(&mut self, file: &mut RunFile, less: RunFile) {
        if self.stays(&less.write()) {
            *file = less;
        }
    }

    /// Leaves out entries: long stretches first, single ones last.
    fn fewer_entries(&mut self, file: &mut RunFile) {
        let mut stretch = file.schedule.len();
        while stretch > 0 {
            let mut end = file.schedule.len();
            while end >= stretch {
                let mut less = file.clone();
                less.schedule.drain(end - stretch..end);
                self.take(file, less);
                end -= stretch;
            }
            stretch /= 2;
        }
    }

    /// Leaves out batches, the last first: alone, or with the entries that play them.
    fn fewer_batches(&mut self, file: &mut RunFile) {
        for core in [0, 1] {
            for batch in (0..file.sizes[core].len()).rev() {
                let before = file.sizes[core].len();
                self.take(file, without_batch(file, core, batch));
                if file.sizes[core].len() == before {
                    let mut less = without_batch(file, core, batch);
                    less.schedule = without_entries_of(file, core, batch);
                    self.take(file, less);
                }
            }
        }
    }

    /// Makes batches smaller: by half as long as that does, then by one.
    fn smaller_batches(&mut self, file: &mut RunFile) {
        for core in [0, 1] {
            for batch in 0..file.sizes[core].len() {
                for less in [|size| size / 2, |size: u8| size.saturating_sub(1)] {
                    let mut size = file.sizes[core][batch];
                    while size > 0 {
                        self.take(file, with_size(file, core, batch, less(size)));
                        let before = std::mem::replace(&mut size, file.sizes[core][batch]);
                        if size == before {
                            break;
                        }
                    }
                }
            }
        }
    }

    /// Smaller ages, a smaller ring and modulus.
    fn plainer(&mut self, file: &mut RunFile) {
        for entry in 0..file.schedule.len() {
            for age in [0, 1] {
                if age < file.schedule[entry].age {
                    let mut less = file.clone();
                    less.schedule[entry].age = age;
                    self.take(file, less);
                }
            }
        }
        for (m, modulus) in [(1, 2), (2, 4), (file.m, 2 * file.m)] {
            if m < file.m || m == file.m && modulus < file.modulus {
                let less = RunFile {
                    m,
                    modulus,
                    ..file.clone()
                };
                self.take(file, less);
            }
        }
    }

    /// Cuts the end of a refused file off: its head is what is told apart.
    fn cut(&mut self, file: &mut Vec<u8>) {
        let mut length = file.len() / 2;
        while length > 0 {
            if self.stays(&file[..file.len() - length]) {
                file.truncate(file.len() - length);
            }
            length = length.min(file.len()) / 2;
        }
    }
}

/// Where the bytes of a push begin.
fn bytes_start(file: &RunFile, push: usize) -> usize {
    let before = &file.sizes[0][..push];
    before.iter().map(|&size| usize::from(size)).sum()
}

/// The file with one batch of a core made smaller, and for a push with fewer of its bytes.
fn with_size(file: &RunFile, core: usize, batch: usize, size: u8) -> RunFile {
    let mut less = file.clone();
    let before = std::mem::replace(&mut less.sizes[core][batch], size);
    if core == 0 {
        let start = bytes_start(file, batch);
        let end = start + usize::from(before);
        less.bytes.drain(start + usize::from(size)..end);
    }
    less
}

/// The file without one batch of a core, and for a push without its bytes.
fn without_batch(file: &RunFile, core: usize, batch: usize) -> RunFile {
    let mut less = with_size(file, core, batch, 0);
    less.sizes[core].remove(batch);
    less
}

/// The schedule without the entries that a core makes in one of its batches.
fn without_entries_of(file: &RunFile, core: usize, batch: usize) -> Vec<Entry> {
    let mut machine = Machine::new(file);
    let mut kept = file.schedule.clone();
    kept.retain(|&entry| {
        let in_batch = usize::from(entry.core) == core && machine.batches(core) == batch;
        machine.play(entry);
        !in_batch
    });
    kept
}

/// A smaller file for which `stays` holds, found within so many tries.
pub fn smaller(mut bytes: Vec<u8>, tries: u32, stays: impl Fn(&[u8]) -> bool) -> Vec<u8> {
    let mut asker = Asker { tries, stays };
    loop {
        let before = bytes.clone();
        match read(&bytes, ENOUGH) {
            Ok(mut file) => {
                asker.fewer_entries(&mut file);
                asker.fewer_batches(&mut file);
                asker.smaller_batches(&mut file);
                asker.plainer(&mut file);
                bytes = file.write();
            }
            Err(_) => asker.cut(&mut bytes),
        }
        if bytes == before {
            return bytes;
        }
    }
}

#[cfg(test)]
mod tests {
    use super::*;

    /// What is looked for: a push of 3 bytes or more that starts with byte 9, and two entries.
    fn stays(file: &[u8]) -> bool {
        let file = read(file, ENOUGH).unwrap();
        let found = |push| file.sizes[0][push] >= 3 && file.bytes[bytes_start(&file, push)] == 9;
        file.schedule.len() >= 2 && (0..file.sizes[0].len()).any(found)
    }

    #[test]
    fn only_what_matters_is_left() {
        let file = RunFile {
            m: 6,
            modulus: 60,
            orders: 15,
            sizes: [vec![2, 7, 1], vec![4, 4]],
            bytes: vec![1, 2, 9, 4, 5, 6, 7, 8, 9, 0],
            schedule: vec![Entry { core: 1, age: 3 }; 20],
        };
        assert!(stays(&file.write()));
        let less = smaller(file.write(), 2_000, stays);
        let expected = [1, 2, 0, 0, 0, 15, 1, 0, 3, 9, 4, 5, 1, 0, 1, 0];
        assert_eq!(less, expected);
    }

    #[test]
    fn a_batch_goes_with_its_entries() {
        // What is looked for: the consumer's first entry plays its last batch, of 2 bytes.
        let file = RunFile {
            m: 1,
            modulus: 2,
            orders: 15,
            sizes: [vec![], vec![0, 0, 2]],
            bytes: vec![],
            schedule: vec![Entry { core: 1, age: 0 }; 5],
        };
        let found = |file: &[u8]| {
            let file = read(file, ENOUGH).unwrap();
            let mut machine = Machine::new(&file);
            let plays = |&entry: &Entry| {
                let last = file.sizes[1].get(machine.batches(1)) == Some(&2);
                machine.play(entry) < 128 && last
            };
            file.schedule.iter().any(plays)
        };
        let less = smaller(file.write(), 2_000, found);
        assert_eq!(less, [1, 2, 0, 0, 0, 15, 0, 1, 2, 1, 0]);
    }
}
