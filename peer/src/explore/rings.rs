//! The small rings that are explored, each with lists of push and pop sizes.

use crate::file::RunFile;

/// Rings of the gate: m and M.
pub const RINGS: [(u32, u32); 5] = [(1, 2), (1, 3), (2, 4), (2, 6), (3, 6)];

/// Sizes of the pushes and of the pops.
type Lists = [Vec<u8>; 2];

/// Sizes for a ring of m slots. Each ring is filled, emptied and lapped more than once; batches of 0 and ones longer
/// than m are among them.
fn lists(m: u8, more: bool) -> Vec<Lists> {
    let ones = |count: u8| vec![1; usize::from(count)];
    let mut lists = vec![
        [vec![1], vec![1]],
        // Whole rings and a byte: four times round, and twice past the modulus where that is 2m.
        [vec![m, m, m, m, 1], vec![m, m, m, m, 1]],
        // Empty batches and ones longer than the ring among others.
        [vec![0, m, m + 1, 1, m], vec![m + 1, 1, 0, m, 1]],
        [vec![0, 1, 0, m, 1], vec![0, m, 1, 0]],
        // A ring emptied byte by byte, and one used byte by byte.
        [vec![m, 1, m], [ones(m), vec![m]].concat()],
        [ones(m + 3), ones(m + 3)],
    ];
    if more {
        lists.extend([
            [vec![m; 6], vec![m; 6]],
            [ones(2 * m + 2), ones(2 * m + 2)],
            [
                [ones(m), vec![m, m]].concat(),
                [vec![m], ones(m), vec![m]].concat(),
            ],
        ]);
    }
    lists
}

/// The run file of a ring and its lists, with no schedule yet. No two bytes to push are the same.
fn file((m, modulus): (u32, u32), orders: u8, sizes: Lists) -> RunFile {
    let count = sizes[0].iter().map(|&size| usize::from(size)).sum();
    RunFile {
        m,
        modulus,
        orders,
        sizes,
        bytes: (65..).take(count).collect(),
        schedule: Vec::new(),
    }
}

/// Every ring with every setting and each of its lists: the ring's place in `RINGS`, and the file.
pub fn tasks(more: bool) -> Vec<(usize, RunFile)> {
    let mut tasks = Vec::new();
    for (place, &ring) in RINGS.iter().enumerate() {
        for sizes in lists(ring.0 as u8, more) {
            for orders in 0..16 {
                tasks.push((place, file(ring, orders, sizes.clone())));
            }
        }
    }
    tasks
}
