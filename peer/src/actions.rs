//! The recorded actions of a run, and happens-before as reachability among them.

#[cfg(feature = "library")]
mod known;

/// What an action does to memory. A load of the initial store reads from nothing recorded.
#[derive(Clone, Copy, Debug, PartialEq)]
pub enum Deed {
    OwnLoad { from: Option<usize> },
    ForeignLoad { acquire: bool, from: Option<usize> },
    IndexStore { release: bool },
    DataStore { slot: u32 },
    DataLoad { slot: u32 },
}

impl Deed {
    /// The recorded store that a load of an index reads from.
    fn reads(self) -> Option<usize> {
        match self {
            Deed::OwnLoad { from } | Deed::ForeignLoad { from, .. } => from,
            _ => None,
        }
    }
}

/// Which of the two rules hide a store from a load.
#[derive(Clone, Copy, Debug, PartialEq)]
pub struct Hidden {
    pub axiom_2: bool,
    pub coherence: bool,
}

impl Hidden {
    pub fn by_coherence_alone(&self) -> bool {
        self.coherence && !self.axiom_2
    }

    pub fn by_axiom_2_alone(&self) -> bool {
        self.axiom_2 && !self.coherence
    }
}

#[derive(Clone, Copy, Debug)]
pub struct Action {
    pub core: usize,
    /// The schedule entry that made it, counted from 1.
    pub entry: u32,
    pub deed: Deed,
}

/// All actions so far, oldest first. Every arrow of happens-before leads to a younger one.
#[derive(Clone, Default)]
pub struct Actions {
    list: Vec<Action>,
    /// For each action, the one just before it on the same core.
    before_on_core: Vec<Option<usize>>,
    newest_on_core: [Option<usize>; 2],
    /// For each slot, its data accesses; only a shortcut to them.
    accesses: Vec<Vec<usize>>,
}

/// The actions from `oldest` on that happen before some action.
struct Before {
    oldest: usize,
    seen: Vec<bool>,
}

impl Before {
    fn has(&self, action: usize) -> bool {
        self.seen[action - self.oldest]
    }
}

impl Actions {
    pub fn new(slots: u32) -> Self {
        Actions {
            accesses: vec![Vec::new(); slots as usize],
            ..Actions::default()
        }
    }

    /// Records an action and answers its number.
    pub fn record(&mut self, action: Action) -> usize {
        let number = self.list.len();
        if let Deed::DataStore { slot } | Deed::DataLoad { slot } = action.deed {
            self.accesses[slot as usize].push(number);
        }
        self.list.push(action);
        self.before_on_core.push(self.newest_on_core[action.core]);
        self.newest_on_core[action.core] = Some(number);
        number
    }

    /// The arrow across the cores: the release store that an acquire load reads from.
    fn released_to(&self, deed: Deed) -> Option<usize> {
        match deed {
            Deed::ForeignLoad {
                acquire: true,
                from,
            } => from.filter(|&store| self.list[store].deed == Deed::IndexStore { release: true }),
            _ => None,
        }
    }

    /// What happens before an action not yet recorded.
    fn before(&self, action: Action, oldest: usize) -> Before {
        let arrows = [
            self.newest_on_core[action.core],
            self.released_to(action.deed),
        ];
        self.reached(arrows, oldest)
    }

    /// Searches backwards along the arrows into an action, no further than `oldest`:
    /// whatever lies beyond is older than all that is asked for and cannot lead to it.
    fn reached(&self, arrows: [Option<usize>; 2], oldest: usize) -> Before {
        let mut seen = vec![false; self.list.len() - oldest];
        let mut open = arrows.to_vec();
        while let Some(next) = open.pop() {
            match next {
                Some(number) if number >= oldest && !seen[number - oldest] => {
                    seen[number - oldest] = true;
                    open.push(self.before_on_core[number]);
                    open.push(self.released_to(self.list[number].deed));
                }
                _ => {}
            }
        }
        Before { oldest, seen }
    }

    /// The rules that hide a store from a load, by the later stores of that index.
    /// The initial stores are never later than another, so they need no place here.
    pub fn hides(&self, later: &[usize], load: Action) -> Hidden {
        Hidden {
            axiom_2: self.has_happened(later, load),
            coherence: self.was_read(later, load),
        }
    }

    /// Axiom 2: a load may not read a store if one of the later stores of that index happens before the load.
    fn has_happened(&self, later: &[usize], load: Action) -> bool {
        later.iter().min().map_or(false, |&oldest| {
            let before = self.before(load, oldest);
            later.iter().any(|&store| before.has(store))
        })
    }

    /// Coherence: a load may not read a store if an earlier load of that index by the same core, own or foreign, read one of
    /// the later stores. A load that reads one of them is a load of that index.
    fn was_read(&self, later: &[usize], load: Action) -> bool {
        let of_core = self.list.iter().filter(|earlier| earlier.core == load.core);
        let mut read = of_core.filter_map(|earlier| earlier.deed.reads());
        !later.is_empty() && read.any(|store| later.contains(&store))
    }

    /// The latest earlier access that a data access races with: same slot, other core,
    /// one of the two a store, and not happening before it.
    pub fn race(&self, access: Action) -> Option<Action> {
        let (slot, stores) = match access.deed {
            Deed::DataStore { slot } => (slot, true),
            Deed::DataLoad { slot } => (slot, false),
            _ => return None,
        };
        let rivals: Vec<usize> = self.accesses[slot as usize]
            .iter()
            .copied()
            .filter(|&number| {
                let other = self.list[number];
                other.core != access.core && (stores || other.deed == Deed::DataStore { slot })
            })
            .collect();
        let before = self.before(access, *rivals.first()?);
        rivals
            .iter()
            .rev()
            .find(|&&number| !before.has(number))
            .map(|&number| self.list[number])
    }
}

#[cfg(test)]
mod tests {
    use super::*;

    fn action(core: usize, deed: Deed) -> Action {
        Action {
            core,
            entry: 0,
            deed,
        }
    }

    /// A data store, an index store, a foreign load of it, and whether a data load then races.
    fn load_races(release: bool, acquire: bool) -> bool {
        let mut actions = Actions::new(1);
        actions.record(action(0, Deed::DataStore { slot: 0 }));
        let store = actions.record(action(0, Deed::IndexStore { release }));
        actions.record(action(
            1,
            Deed::ForeignLoad {
                acquire,
                from: Some(store),
            },
        ));
        actions
            .race(action(1, Deed::DataLoad { slot: 0 }))
            .is_some()
    }

    #[test]
    fn only_release_and_acquire_together_order() {
        assert!(!load_races(true, true));
        assert!(load_races(true, false));
        assert!(load_races(false, true));
        assert!(load_races(false, false));
    }

    fn hidden(axiom_2: bool, coherence: bool) -> Hidden {
        Hidden { axiom_2, coherence }
    }

    #[test]
    fn a_relaxed_load_hides_by_coherence_alone() {
        let mut actions = Actions::new(1);
        let store = actions.record(action(0, Deed::IndexStore { release: true }));
        let load = |acquire, from| action(1, Deed::ForeignLoad { acquire, from });
        actions.record(load(false, None));
        assert_eq!(
            actions.hides(&[store], load(false, None)),
            hidden(false, false)
        );
        actions.record(load(false, Some(store)));
        assert_eq!(
            actions.hides(&[store], load(false, None)),
            hidden(false, true)
        );
        assert_eq!(
            actions.hides(&[], load(false, Some(store))),
            hidden(false, false)
        );
        actions.record(load(true, Some(store)));
        assert_eq!(
            actions.hides(&[store], load(false, None)),
            hidden(true, true)
        );
    }

    #[test]
    fn coherence_is_for_each_core_and_for_own_loads_too() {
        let mut actions = Actions::new(1);
        let store = actions.record(action(0, Deed::IndexStore { release: false }));
        actions.record(action(0, Deed::OwnLoad { from: Some(store) }));
        let older = |core| actions.hides(&[store], action(core, Deed::OwnLoad { from: None }));
        assert!(older(0).coherence);
        assert!(!older(1).coherence);
    }
}
