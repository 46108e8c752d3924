//! The pool's tables as numbers: streams and events by the numbers that the driver gave them.

#[derive(Clone, Debug, Default, PartialEq, Eq)]
pub struct Tables {
    /// By ascending address, as are live, holes and pages.
    pub free: Vec<Free>,
    pub live: Vec<Live>,
    pub holes: Vec<Range>,
    /// In their own order, as are roots.
    pub zombies: Vec<Zombie>,
    pub pages: Vec<Page>,
    pub roots: Vec<u64>,
    pub counter: u64,
}

#[derive(Clone, Copy, Debug, PartialEq, Eq)]
pub struct Free {
    pub range: Range,
    pub stream: u64,
    pub id: u64,
}

#[derive(Clone, Copy, Debug, PartialEq, Eq)]
pub struct Live {
    pub range: Range,
    pub stream: u64,
}

#[derive(Clone, Copy, Debug, PartialEq, Eq)]
pub struct Zombie {
    pub range: Range,
    pub event: u64,
}

#[derive(Clone, Copy, Debug, PartialEq, Eq)]
pub struct Page {
    pub address: u64,
    pub handle: u64,
}

/// A buffer of less than a page: the manager's, not the pool's.
#[derive(Clone, Copy, Debug, PartialEq, Eq, PartialOrd, Ord)]
pub struct Small {
    pub pointer: u64,
    pub size: u64,
    pub stream: u64,
}

#[derive(Clone, Copy, Debug, PartialEq, Eq)]
pub struct Range {
    pub address: u64,
    pub size: u64,
}

impl Range {
    pub fn new(address: u64, size: u64) -> Self {
        Self { address, size }
    }

    pub fn end(self) -> u64 {
        self.address + self.size
    }

    pub fn holds(self, address: u64) -> bool {
        self.address <= address && address < self.end()
    }
}
