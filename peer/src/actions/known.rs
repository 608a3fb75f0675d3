//! What of happens-before can matter to actions still to come, without the order in which the cores took turns.

use super::{Action, Actions, Before, Deed};

/// A byte for an action that others may have to know of: an index store or a data access.
fn kind(deed: Deed) -> Option<[u8; 2]> {
    match deed {
        Deed::OwnLoad { .. } | Deed::ForeignLoad { .. } => None,
        Deed::IndexStore { .. } => Some([b'i', 0]),
        Deed::DataStore { slot } => Some([b's', slot as u8]),
        Deed::DataLoad { slot } => Some([b'l', slot as u8]),
    }
}

impl Actions {
    /// The index stores and data accesses: the producer's, then the consumer's, each as they follow on their core.
    fn memorable(&self) -> Vec<usize> {
        let mut numbers: Vec<usize> = (0..self.list.len())
            .filter(|&number| kind(self.list[number].deed).is_some())
            .collect();
        numbers.sort_by_key(|&number| (self.list[number].core, number));
        numbers
    }

    /// What happens before a recorded action.
    fn before_recorded(&self, number: usize) -> Before {
        let arrows = [
            self.before_on_core[number],
            self.released_to(self.list[number].deed),
        ];
        self.reached(arrows, 0)
    }

    /// The latest store of an index, by the core that makes its stores, that a core has read.
    fn latest_read(&self, core: usize, storer: usize) -> Option<usize> {
        let of_core = self.list.iter().filter(|action| action.core == core);
        of_core
            .filter_map(|action| action.deed.reads())
            .filter(|&store| self.list[store].core == storer)
            .max()
    }

    /// The index stores and data accesses of each core, and which of them happen before each core's next action
    /// and before each index store. A later action's own past is the past of its core and, for an acquire load,
    /// the release store that it reads from with that store's past: so this decides it. And for each core and index
    /// the latest store that the core has read, by its place among all these, or the place past the last where it is the
    /// initial one.
    pub fn known(&self) -> Vec<u8> {
        let memorable = self.memorable();
        let mut known = Vec::new();
        for &number in &memorable {
            let Action { core, deed, .. } = self.list[number];
            known.push(core as u8);
            known.extend(kind(deed).unwrap_or_default());
        }
        let next = |core| Action {
            core,
            entry: 0,
            deed: Deed::OwnLoad { from: None },
        };
        let mut pasts = vec![self.before(next(0), 0), self.before(next(1), 0)];
        let stores = |&&number: &&usize| matches!(self.list[number].deed, Deed::IndexStore { .. });
        pasts.extend(
            memorable
                .iter()
                .filter(stores)
                .map(|&number| self.before_recorded(number)),
        );
        for past in pasts {
            known.extend(memorable.iter().map(|&number| u8::from(past.has(number))));
        }
        for (core, storer) in [(0, 0), (0, 1), (1, 0), (1, 1)] {
            let latest = self.latest_read(core, storer);
            known.push(
                memorable
                    .iter()
                    .take_while(|&&number| Some(number) != latest)
                    .count() as u8,
            );
        }
        known
    }
}
