//! What each schedule entry does: its mark, the bytes read, the report.

use crate::actions::{Action, Actions, Deed, Hidden};
use crate::file::{Entry, RunFile, REPORT_BYTES, REPORT_NUMBERS};

#[cfg(feature = "library")]
mod state;

pub const PRODUCER: usize = 0;
pub const CONSUMER: usize = 1;

/// Marks of entries that are performed.
pub mod performed {
    pub const OWN_LOAD: u8 = 1;
    pub const ROOM_ENOUGH: u8 = 2;
    pub const BATCH_FAILED: u8 = 3;
    pub const DATA_STORE: u8 = 4;
    pub const DATA_LOAD: u8 = 5;
    pub const INDEX_STORE: u8 = 6;
    pub const RACE: u8 = 7;
}

/// Marks of entries that are refused.
pub mod refused {
    pub const NO_CORE: u8 = 129;
    pub const HALTED: u8 = 130;
    pub const NO_BATCH: u8 = 131;
    pub const AGE_UNUSED: u8 = 132;
    pub const AGE_TOO_GREAT: u8 = 133;
    pub const HIDDEN: u8 = 134;
}

/// Places of the report's numbers that are looked at one by one.
pub mod report {
    /// Those of the producer and, in the next place, of the consumer.
    pub const COMPLETED_BYTES: usize = 2;
    pub const DATA_LOADS: usize = 4;
    #[cfg(feature = "library")]
    pub const REFUSED: usize = 1;
    #[cfg(feature = "library")]
    pub const OCCUPANCY: usize = 5;
    #[cfg(feature = "library")]
    pub const RACE: usize = 8;
    #[cfg(feature = "library")]
    pub const RACE_PARTNER: usize = 9;
    /// The largest shortfalls: of the producer and, in the next place, of the consumer.
    pub const SHORTFALL: usize = 10;
}

/// Where a core stands in its batch: the access that its next entry makes.
#[derive(Clone, Copy, Debug, PartialEq)]
pub enum Next {
    OwnLoad,
    ForeignLoad,
    Data(u32),
    IndexStore,
}

/// By how much a failed batch's size was above the room.
#[derive(Clone, Copy, Debug, PartialEq)]
pub struct Shortfall {
    /// With the index that was cached when the batch began.
    pub at_first: u32,
    /// With the index loaded for it, which made it fail.
    pub reloaded: u32,
}

/// What a run went through that its answer does not show.
#[derive(Default)]
pub struct Inside {
    /// Those of the failed pushes and of the failed pops, oldest first.
    pub shortfalls: [Vec<Shortfall>; 2],
    /// What hid a store from the producer and from the consumer, each time that one was refused for it.
    pub hidden: [Vec<Hidden>; 2],
}

/// Why a foreign load may not read the store of its age.
enum Unreadable {
    PastInitial,
    Hidden(Hidden),
}

/// The largest of some shortfalls, or 0 where there are none.
pub fn largest(shortfalls: impl Iterator<Item = u32>) -> u32 {
    shortfalls.max().unwrap_or(0)
}

#[derive(Clone)]
struct Core {
    next: Next,
    /// Batches left behind, completed or failed.
    batches: usize,
    /// Sum of their sizes: for the producer, where this batch's bytes begin.
    passed: usize,
    /// Own index as last loaded.
    own: u32,
    /// Cached foreign index.
    cached: u32,
    completed_bytes: u32,
    /// Of its failed batches.
    shortfalls: Vec<Shortfall>,
    /// Of its refused loads.
    hidden: Vec<Hidden>,
}

/// One store of an index; the initial one is no recorded action.
#[derive(Clone, Copy)]
struct Stored {
    value: u32,
    action: Option<usize>,
}

#[derive(Clone)]
pub struct Machine<'f> {
    file: &'f RunFile,
    /// Whether coherence hides stores, beside axiom 2.
    coherent: bool,
    cores: [Core; 2],
    /// The stores of back and of front, oldest first: each under the core that makes them.
    stores: [Vec<Stored>; 2],
    slots: Vec<u8>,
    actions: Actions,
    entries: u32,
    performed: u32,
    out: Vec<u8>,
    /// The racing entry and the one that it races with.
    race: Option<(u32, u32)>,
}

impl<'f> Machine<'f> {
    pub fn new(file: &'f RunFile) -> Self {
        let core = Core {
            next: Next::OwnLoad,
            batches: 0,
            passed: 0,
            own: 0,
            cached: 0,
            completed_bytes: 0,
            shortfalls: Vec::new(),
            hidden: Vec::new(),
        };
        let initial = vec![Stored {
            value: 0,
            action: None,
        }];
        Machine {
            file,
            coherent: true,
            cores: [core.clone(), core],
            stores: [initial.clone(), initial],
            slots: vec![0; file.m as usize],
            actions: Actions::new(file.m),
            entries: 0,
            performed: 0,
            out: Vec::new(),
            race: None,
        }
    }

    /// The machine as it would be if axiom 2 alone hid stores.
    #[cfg(feature = "library")]
    pub fn without_coherence(file: &'f RunFile) -> Self {
        Machine {
            coherent: false,
            ..Machine::new(file)
        }
    }

    pub fn halted(&self) -> bool {
        self.race.is_some()
    }

    /// The core's next access, or none where it has no batch left.
    pub fn next(&self, core: usize) -> Option<Next> {
        self.size(core).map(|_| self.cores[core].next)
    }

    /// Number of batches that the core has left behind.
    pub fn batches(&self, core: usize) -> usize {
        self.cores[core].batches
    }

    /// Number of stores of the index that the core loads as foreign.
    pub fn foreign_stores(&self, core: usize) -> usize {
        self.stores[1 - core].len()
    }

    pub fn out(&self) -> &[u8] {
        &self.out
    }

    /// What the run went through, once it is over.
    pub fn inside(self) -> Inside {
        let [producer, consumer] = self.cores;
        Inside {
            shortfalls: [producer.shortfalls, consumer.shortfalls],
            hidden: [producer.hidden, consumer.hidden],
        }
    }

    /// Size of the core's batch at hand.
    fn size(&self, core: usize) -> Option<u32> {
        self.file.sizes[core]
            .get(self.cores[core].batches)
            .map(|&size| u32::from(size))
    }

    /// Order bits: 0 and 1 are the producer's foreign load and index store, 2 and 3 the consumer's.
    fn strong(&self, core: usize, store: bool) -> bool {
        self.file.orders >> (2 * core + usize::from(store)) & 1 == 1
    }

    /// Room for a push: (cached front + m - b) mod M; for a pop: (cached back - f) mod M.
    fn room(&self, core: usize, cached: u32) -> u32 {
        let own = self.cores[core].own;
        let ahead = if core == PRODUCER {
            cached + self.file.m
        } else {
            cached
        };
        (ahead + self.file.modulus - own) % self.file.modulus
    }

    /// How many bytes of room a batch lacks; 0 where it fits.
    fn shortfall(&self, core: usize, cached: u32, size: u32) -> u32 {
        size.saturating_sub(self.room(core, cached))
    }

    /// Plays one entry and answers its mark.
    pub fn play(&mut self, entry: Entry) -> u8 {
        self.entries += 1;
        match self.perform(entry) {
            Ok(mark) => {
                self.performed += 1;
                mark
            }
            Err(mark) => mark,
        }
    }

    /// Ok: the mark of a performed entry. Err: the mark of a refused one, with nothing changed.
    fn perform(&mut self, entry: Entry) -> Result<u8, u8> {
        let core = usize::from(entry.core);
        if core > CONSUMER {
            return Err(refused::NO_CORE);
        }
        if self.halted() {
            return Err(refused::HALTED);
        }
        let size = self.size(core).ok_or(refused::NO_BATCH)?;
        let next = self.cores[core].next;
        if entry.age != 0 && next != Next::ForeignLoad {
            return Err(refused::AGE_UNUSED);
        }
        match next {
            Next::OwnLoad => Ok(self.own_load(core, size)),
            Next::ForeignLoad => self.foreign_load(core, size, usize::from(entry.age)),
            Next::Data(i) => Ok(self.data_access(core, size, i)),
            Next::IndexStore => Ok(self.index_store(core, size)),
        }
    }

    fn action(&self, core: usize, deed: Deed) -> Action {
        Action {
            core,
            entry: self.entries,
            deed,
        }
    }

    fn record(&mut self, core: usize, deed: Deed) -> usize {
        let action = self.action(core, deed);
        self.actions.record(action)
    }

    /// What follows once room is enough: the i-th data access, or the index store after the last.
    fn data_or_store(i: u32, size: u32) -> Next {
        if i < size {
            Next::Data(i)
        } else {
            Next::IndexStore
        }
    }

    fn own_load(&mut self, core: usize, size: u32) -> u8 {
        let Stored { value, action } = self.stores[core][self.stores[core].len() - 1];
        self.record(core, Deed::OwnLoad { from: action });
        self.cores[core].own = value;
        let shortfall = self.shortfall(core, self.cores[core].cached, size);
        self.cores[core].next = if shortfall == 0 {
            Self::data_or_store(0, size)
        } else {
            Next::ForeignLoad
        };
        performed::OWN_LOAD
    }

    /// The store that a foreign load reads and the action that it is, or why it may not be.
    fn readable(&self, core: usize, age: usize) -> Result<(Stored, Deed), Unreadable> {
        let stores = &self.stores[1 - core];
        if age >= stores.len() {
            return Err(Unreadable::PastInitial);
        }
        let place = stores.len() - 1 - age;
        let store = stores[place];
        let later: Vec<usize> = stores[place + 1..]
            .iter()
            .filter_map(|later| later.action)
            .collect();
        let deed = Deed::ForeignLoad {
            acquire: self.strong(core, false),
            from: store.action,
        };
        let hidden = self.actions.hides(&later, self.action(core, deed));
        if hidden.axiom_2 || self.coherent && hidden.coherence {
            return Err(Unreadable::Hidden(hidden));
        }
        Ok((store, deed))
    }

    /// What hides the store from the core's foreign load, were it made at this age.
    #[cfg(feature = "library")]
    pub fn hidden(&self, core: usize, age: u8) -> Option<Hidden> {
        match self.readable(core, usize::from(age)) {
            Err(Unreadable::Hidden(hidden)) => Some(hidden),
            _ => None,
        }
    }

    /// Whether the core's foreign load, were it made at this age, would be performed and the batch fail.
    pub fn would_fail(&self, core: usize, age: u8) -> bool {
        match (self.readable(core, usize::from(age)), self.size(core)) {
            (Ok((store, _)), Some(size)) => {
                !self.halted() && self.shortfall(core, store.value, size) > 0
            }
            _ => false,
        }
    }

    fn foreign_load(&mut self, core: usize, size: u32, age: usize) -> Result<u8, u8> {
        let (store, deed) = match self.readable(core, age) {
            Ok(readable) => readable,
            Err(Unreadable::PastInitial) => return Err(refused::AGE_TOO_GREAT),
            Err(Unreadable::Hidden(hidden)) => {
                self.cores[core].hidden.push(hidden);
                return Err(refused::HIDDEN);
            }
        };
        self.record(core, deed);
        let before = std::mem::replace(&mut self.cores[core].cached, store.value);
        let shortfall = Shortfall {
            at_first: self.shortfall(core, before, size),
            reloaded: self.shortfall(core, store.value, size),
        };
        if shortfall.reloaded == 0 {
            self.cores[core].next = Self::data_or_store(0, size);
            Ok(performed::ROOM_ENOUGH)
        } else {
            self.cores[core].shortfalls.push(shortfall);
            self.leave_batch(core, size);
            Ok(performed::BATCH_FAILED)
        }
    }

    fn data_access(&mut self, core: usize, size: u32, i: u32) -> u8 {
        let slot = (self.cores[core].own + i) % self.file.m;
        let deed = if core == PRODUCER {
            Deed::DataStore { slot }
        } else {
            Deed::DataLoad { slot }
        };
        if let Some(rival) = self.actions.race(self.action(core, deed)) {
            self.race = Some((self.entries, rival.entry));
            return performed::RACE;
        }
        self.record(core, deed);
        self.cores[core].next = Self::data_or_store(i + 1, size);
        if core == PRODUCER {
            self.slots[slot as usize] = self.file.bytes[self.cores[core].passed + i as usize];
            performed::DATA_STORE
        } else {
            self.out.push(self.slots[slot as usize]);
            performed::DATA_LOAD
        }
    }

    fn index_store(&mut self, core: usize, size: u32) -> u8 {
        let action = self.record(
            core,
            Deed::IndexStore {
                release: self.strong(core, true),
            },
        );
        let value = (self.cores[core].own + size) % self.file.modulus;
        self.stores[core].push(Stored {
            value,
            action: Some(action),
        });
        self.cores[core].completed_bytes += size;
        self.leave_batch(core, size);
        performed::INDEX_STORE
    }

    /// Goes on to the next batch, past the bytes of this one.
    fn leave_batch(&mut self, core: usize, size: u32) {
        let core = &mut self.cores[core];
        core.batches += 1;
        core.passed += size as usize;
        core.next = Next::OwnLoad;
    }

    /// The numbers of the report.
    pub fn numbers(&self) -> [u32; REPORT_NUMBERS] {
        let newest = |core: usize| self.stores[core][self.stores[core].len() - 1].value;
        let modulus = self.file.modulus;
        let (racing, rival) = self.race.unwrap_or((0, 0));
        let shortfalls = |core: usize| self.cores[core].shortfalls.iter();
        let missing = |core| largest(shortfalls(core).map(|shortfall| shortfall.reloaded));
        [
            self.performed,
            self.entries - self.performed,
            self.cores[PRODUCER].completed_bytes,
            self.cores[CONSUMER].completed_bytes,
            self.out.len() as u32,
            (newest(PRODUCER) + modulus - newest(CONSUMER)) % modulus,
            shortfalls(PRODUCER).len() as u32,
            shortfalls(CONSUMER).len() as u32,
            racing,
            rival,
            missing(PRODUCER),
            missing(CONSUMER),
        ]
    }

    /// The report as it is written: each number little-endian.
    pub fn report(&self) -> [u8; REPORT_BYTES] {
        let mut report = [0; REPORT_BYTES];
        for (place, number) in report.chunks_mut(4).zip(self.numbers()) {
            place.copy_from_slice(&number.to_le_bytes());
        }
        report
    }
}
