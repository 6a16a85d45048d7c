//! Ids, counters, what is covered and what is ready.
//! Document 01, "Ids, what was seen, what depends".

/// Terminals are numbered 1 to 8.
pub const TERMINALS: usize = 8;

/// An id `c.r`. The derived order is by counter, then by terminal.
#[derive(Clone, Copy, PartialEq, Eq, PartialOrd, Ord, Hash, Debug)]
pub struct Id {
    /// 1 to 4294967295
    pub counter: u32,
    /// 1 to 8
    pub terminal: u8,
}

impl Id {
    /// The index of this id's terminal in an array of eight counters.
    fn entry(self) -> usize {
        usize::from(self.terminal) - 1
    }
}

/// Eight counters, one for each terminal: `seen` and `deps`.
#[derive(Clone, Copy, PartialEq, Eq, Default, Debug)]
pub struct Counters(pub [u32; TERMINALS]);

impl Counters {
    /// The entry of the terminal of `id`.
    pub fn of(&self, id: Id) -> u32 {
        self.0[id.entry()]
    }

    /// An id c.r is covered if c is at most entry r.
    pub fn covers(&self, id: Id) -> bool {
        id.counter <= self.of(id)
    }

    pub fn largest(&self) -> u32 {
        self.0.into_iter().fold(0, u32::max)
    }

    /// Notes `id` as the last applied of its terminal.
    pub fn raise(&mut self, id: Id) {
        self.0[id.entry()] = id.counter;
    }
}

/// Ready: the own entry equals the seen one, each other is at most the seen one.
pub fn ready(id: Id, deps: &Counters, seen: &Counters) -> bool {
    let none_ahead = deps.0.iter().zip(&seen.0).all(|(dep, seen)| dep <= seen);
    none_ahead && deps.of(id) == seen.of(id)
}
