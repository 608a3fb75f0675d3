//! The state of a run: all that bears on what its later entries do, and nothing of how it came about.

use super::{report, Machine, Next};

impl Machine<'_> {
    /// Two runs of one file (its schedule aside) with the same state get the same marks and the same bytes read for
    /// the same later entries, and report the same but for the numbers of entries. It holds, for each core, its batch,
    /// where it stands in it, its own index as loaded, the cached foreign index, the bytes completed, its largest
    /// shortfall; the values of all stores of both indexes; the slots; the bytes read; whether the machine has halted;
    /// and of happens-before what `known` says.
    pub fn state(&self) -> Vec<u8> {
        let mut state = vec![u8::from(self.halted())];
        let numbers = self.numbers();
        for (core, &shortfall) in self.cores.iter().zip(&numbers[report::SHORTFALL..]) {
            let (next, i) = match core.next {
                Next::OwnLoad => (0, 0),
                Next::ForeignLoad => (1, 0),
                Next::Data(i) => (2, i),
                Next::IndexStore => (3, 0),
            };
            for number in [
                next,
                i,
                core.batches as u32,
                core.own,
                core.cached,
                core.completed_bytes,
                shortfall,
            ] {
                state.extend(number.to_le_bytes());
            }
        }
        for stores in &self.stores {
            state.push(stores.len() as u8);
            state.extend(stores.iter().flat_map(|store| store.value.to_le_bytes()));
        }
        state.extend(&self.slots);
        state.push(self.out.len() as u8);
        state.extend(&self.out);
        state.extend(self.actions.known());
        state
    }
}

#[cfg(test)]
mod tests {
    use super::*;
    use crate::file::{Entry, RunFile};
    use std::collections::HashMap;

    /// What each entry does here: its mark, the bytes read, the numbers reported that are not of entries, the state after it.
    type Doings = Vec<(u8, Vec<u8>, Vec<u32>, Vec<u8>)>;

    fn entries() -> impl Iterator<Item = Entry> {
        (0..=2).flat_map(|core| (0..=3).map(move |age| Entry { core, age }))
    }

    /// Every schedule of so many performed entries, none left out: wherever the state is one seen before,
    /// every entry must do what it did there.
    fn walk(machine: &Machine, left: u32, seen: &mut HashMap<Vec<u8>, Doings>, again: &mut u32) {
        let mut doings = Doings::new();
        for entry in entries() {
            let mut after = machine.clone();
            let mark = after.play(entry);
            let numbers = after.numbers();
            let told = [
                &numbers[report::COMPLETED_BYTES..report::RACE],
                &numbers[report::SHORTFALL..],
            ];
            doings.push((mark, after.out.clone(), told.concat(), after.state()));
            if mark < 128 && left > 0 {
                walk(&after, left - 1, seen, again);
            }
        }
        if let Some(before) = seen.get(&machine.state()) {
            *again += 1;
            assert_eq!(*before, doings);
        }
        seen.insert(machine.state(), doings);
    }

    #[test]
    fn the_same_state_does_the_same() {
        let mut again = 0;
        let lists = [
            [vec![1, 0, 1], vec![0, 1, 1]],
            // Pops that fail by 1 or by 2.
            [vec![1], vec![2, 2, 1]],
            // Stores of one value, so that only their places tell which was read.
            [vec![0, 0], vec![2, 2]],
        ];
        for (orders, sizes) in [0, 6, 9, 15]
            .into_iter()
            .flat_map(|orders| lists.clone().map(|sizes| (orders, sizes)))
        {
            let file = RunFile {
                m: 1,
                modulus: 2,
                orders,
                sizes,
                bytes: vec![65, 66],
                schedule: Vec::new(),
            };
            walk(&Machine::new(&file), 9, &mut HashMap::new(), &mut again);
        }
        assert!(again > 1_000, "{again}");
    }
}
