//! The stores that foreign loads read, by the marks and the ages of a run: no core goes back to an older one.

use crate::machine::performed;

/// Whether a core reads an older store of an index after a newer one. Its own index it always reads at the newest.
pub fn goes_back(marks: &[u8], schedule: &[u8]) -> bool {
    // Stores of each core's index beside the initial one, and the place of the latest that each core has read of the other's.
    let (mut stores, mut latest) = ([0; 2], [0; 2]);
    for (&mark, entry) in marks.iter().zip(schedule.chunks(2)) {
        let (core, age) = (usize::from(entry[0]), usize::from(entry[1]));
        match mark {
            performed::INDEX_STORE => stores[core] += 1,
            performed::ROOM_ENOUGH | performed::BATCH_FAILED => {
                let place = stores[1 - core] - age;
                if place < latest[core] {
                    return true;
                }
                latest[core] = place;
            }
            _ => {}
        }
    }
    false
}

#[cfg(test)]
mod tests {
    use super::*;

    /// A push of 1, then two pops of 2 that load back at these ages, and with the second load's mark.
    fn back_at(ages: [u8; 2], last: u8) -> bool {
        let pops = [1, 0, 1, ages[0], 1, 0, 1, ages[1]];
        let schedule = [[0, 0].repeat(3), pops.to_vec()].concat();
        goes_back(&[1, 4, 6, 1, 3, 1, last], &schedule)
    }

    #[test]
    fn only_a_performed_load_of_an_older_store_goes_back() {
        assert!(back_at([0, 1], 3));
        assert!(!back_at([0, 1], 134));
        assert!(!back_at([0, 0], 3));
        assert!(!back_at([1, 1], 3));
        assert!(!back_at([1, 0], 3));
    }
}
