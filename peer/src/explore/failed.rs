//! The failed batches of a run, by its marks, its schedule and the sizes: how many bytes each lacked, counted and not worked out from indexes.

use crate::file::RunFile;
use crate::machine::{performed, PRODUCER};

pub struct Failed {
    pub core: usize,
    pub size: i64,
    /// By the store that it read: for a push, the bytes above m that the ring would hold with it; for a pop, the bytes that the
    /// ring does not hold.
    pub lacking: i64,
}

impl Failed {
    /// Whether some of its bytes, or all of them, are what it lacks.
    pub fn lacks_of_its_own(&self) -> bool {
        (1..=self.size).contains(&self.lacking)
    }
}

/// The failed batches, oldest first.
pub fn failed(file: &RunFile, marks: &[u8], schedule: &[u8]) -> Vec<Failed> {
    let mut failed = Vec::new();
    let mut batches = [0; 2];
    // For each core, the bytes of its completed batches at every store of its index, the initial one first.
    let mut completed = [vec![0], vec![0]];
    for (&mark, entry) in marks.iter().zip(schedule.chunks(2)) {
        if !matches!(mark, performed::INDEX_STORE | performed::BATCH_FAILED) {
            continue;
        }
        let (core, age) = (usize::from(entry[0]), usize::from(entry[1]));
        let size = i64::from(file.sizes[core][batches[core]]);
        batches[core] += 1;
        let [own, theirs] = [core, 1 - core].map(|core| &completed[core]);
        let done = own[own.len() - 1];
        if mark == performed::INDEX_STORE {
            completed[core].push(done + size);
            continue;
        }
        let read = theirs[theirs.len() - 1 - age];
        let lacking = if core == PRODUCER {
            done - read + size - i64::from(file.m)
        } else {
            done + size - read
        };
        failed.push(Failed {
            core,
            size,
            lacking,
        });
    }
    failed
}

#[cfg(test)]
mod tests {
    use super::*;

    #[test]
    fn bytes_are_counted_up_to_the_store_that_was_read() {
        let file = RunFile {
            m: 2,
            modulus: 4,
            orders: 15,
            sizes: [vec![1, 1, 2], vec![1, 3, 2]],
            bytes: vec![65, 66, 67, 68],
            schedule: Vec::new(),
        };
        // Two pushes of 1, then a pop; the push of 2 does not see the pop, the pops of 3 and 2 see both pushes and one.
        let schedule = [
            [0, 0].repeat(6),
            [1, 0].repeat(4),
            vec![0, 0, 0, 1, 1, 0, 1, 0, 1, 0, 1, 1],
        ]
        .concat();
        let marks = [1, 4, 6, 1, 4, 6, 1, 2, 5, 6, 1, 3, 1, 3, 1, 3];
        let failed = failed(&file, &marks, &schedule);
        let told: Vec<(usize, i64, i64)> = failed
            .iter()
            .map(|batch| (batch.core, batch.size, batch.lacking))
            .collect();
        assert_eq!(told, [(0, 2, 2), (1, 3, 2), (1, 2, 2)]);
    }
}
