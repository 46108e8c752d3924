//! The library's structs and its functions, as they cross C's conventions: the pool's, and in
//! [`manager`] those of the manager above it.
//!
//! tests/layout holds every field's place against what the library reads and writes.

pub mod manager;

/// Most active pages.
pub const PAGES: usize = 256;
/// Most free regions and live buffers together.
pub const SPANS: usize = 128;
/// Most zombies.
pub const ZOMBIES: usize = 128;
/// Most holes and zombies together.
pub const HOLES: usize = 512;
/// Most roots.
pub const ROOTS: usize = 16;
/// Most small buffers of a manager.
pub const SMALLS: usize = 128;
/// The largest size that a manager asks its pool for.
pub const BYTES: u64 = 1 << 63;
/// Records that a log must have room for. No call makes more driver calls.
pub const LOG: usize = 2048;

/// States of a pool.
pub mod state {
    /// Nothing is reserved; every cell of the value is 0.
    pub const CLOSED: u64 = 0;
    /// Calls are served.
    pub const OPEN: u64 = 1;
    /// A driver call failed or was answered incredibly: only close is served.
    pub const STOPPED: u64 = 2;
}

/// A free region: its last event, and the stream that it is on.
#[repr(C)]
#[derive(Clone, Copy, Debug, Default, PartialEq, Eq)]
pub struct FreeRegion {
    /// Its address.
    pub start: u64,
    /// Its bytes.
    pub size: u64,
    /// The stream that it is on.
    pub stream: u64,
    /// Its event.
    pub id: u64,
}

/// A buffer that malloc handed out and that was not freed.
#[repr(C)]
#[derive(Clone, Copy, Debug, Default, PartialEq, Eq)]
pub struct LiveBuffer {
    /// Its address.
    pub start: u64,
    /// Its bytes.
    pub size: u64,
    /// The stream that it was asked for on.
    pub stream: u64,
}

/// A reserved range with nothing mapped.
#[repr(C)]
#[derive(Clone, Copy, Debug, Default, PartialEq, Eq)]
pub struct Hole {
    /// Its address.
    pub start: u64,
    /// Its bytes.
    pub size: u64,
}

/// A range whose pages were mapped elsewhere, to be unmapped when its event is complete.
#[repr(C)]
#[derive(Clone, Copy, Debug, Default, PartialEq, Eq)]
pub struct Zombie {
    /// Its address.
    pub start: u64,
    /// Its bytes.
    pub size: u64,
    /// Its event.
    pub id: u64,
}

/// An active page.
#[repr(C)]
#[derive(Clone, Copy, Debug, Default, PartialEq, Eq)]
pub struct Page {
    /// Its address.
    pub start: u64,
    /// The driver's handle for it.
    pub handle: u64,
}

/// Cells, of which the first `count` are entries.
#[repr(C)]
#[derive(Clone, Copy, Debug, PartialEq, Eq)]
pub struct Table<T, const CELLS: usize> {
    /// Entries, and zeros behind them.
    pub cells: [T; CELLS],
    /// How many entries there are.
    pub count: usize,
}

impl<T, const CELLS: usize> Table<T, CELLS> {
    /// The cells in use. A count that no pool of the library has is taken for the whole table.
    pub fn entries(&self) -> &[T] {
        &self.cells[..self.count.min(CELLS)]
    }
}

/// The pool value. The library takes any: one that no call of its own made is refused, or served as
/// it stands.
#[repr(C)]
#[derive(Clone, Copy, Debug, PartialEq, Eq)]
pub struct Pool {
    /// One of [`state`].
    pub state: u64,
    /// The page size.
    pub page: u64,
    /// The bytes of a root.
    pub va: u64,
    /// The next event id.
    pub counter: u64,
    /// By ascending address, as are live, holes and pages.
    pub free: Table<FreeRegion, SPANS>,
    /// Live buffers.
    pub live: Table<LiveBuffer, SPANS>,
    /// Holes.
    pub holes: Table<Hole, HOLES>,
    /// In their own order, as are roots.
    pub zombies: Table<Zombie, ZOMBIES>,
    /// Active pages.
    pub pages: Table<Page, PAGES>,
    /// Bases of the reservations.
    pub roots: Table<u64, ROOTS>,
}

/// What a call hands back.
#[repr(C)]
#[derive(Clone, Copy, Debug, PartialEq, Eq)]
pub struct Reply {
    /// The pool after the call.
    pub pool: Pool,
    /// The answer's number (docs/RULES.md 4.1).
    pub answer: u64,
    /// The answer's first value.
    pub first: u64,
    /// The answer's second value.
    pub second: u64,
    /// How many records were written to the log.
    pub records: usize,
    /// How many answers were taken.
    pub taken: usize,
}

/// A buffer of fewer bytes than a page has: the driver's own.
#[repr(C)]
#[derive(Clone, Copy, Debug, Default, PartialEq, Eq)]
pub struct SmallBuffer {
    /// Where the driver has put it.
    pub pointer: u64,
    /// Its bytes.
    pub size: u64,
    /// The stream that it was asked for on.
    pub stream: u64,
}

/// The manager's value: a pool, and what stands above it.
#[repr(C)]
#[derive(Clone, Copy, Debug, PartialEq, Eq)]
pub struct Manager {
    /// The pool.
    pub pool: Pool,
    /// Small buffers, in the order in which they came.
    pub small: Table<SmallBuffer, SMALLS>,
    /// The bytes held: of small buffers as asked for, of others in whole pages.
    pub current: u64,
    /// The most that ever were, since the opening or the last reset.
    pub highest: u64,
}

/// What a call of the manager hands back.
#[repr(C)]
#[derive(Clone, Copy, Debug, PartialEq, Eq)]
pub struct ManagerReply {
    /// The manager after the call.
    pub manager: Manager,
    /// The answer's number (docs/RULES.md 4.1 and 12).
    pub answer: u64,
    /// The answer's first value.
    pub first: u64,
    /// The answer's second value.
    pub second: u64,
    /// How many records were written to the log.
    pub records: usize,
    /// How many answers were taken.
    pub taken: usize,
}

/// The numbers of a pool value, one word each.
pub const POOL_WORDS: usize = size_of::<Pool>() / size_of::<u64>();
/// The numbers of a reply.
pub const REPLY_WORDS: usize = size_of::<Reply>() / size_of::<u64>();
/// The numbers of a manager.
pub const MANAGER_WORDS: usize = size_of::<Manager>() / size_of::<u64>();
/// The numbers of a manager's reply.
pub const MANAGER_REPLY_WORDS: usize = size_of::<ManagerReply>() / size_of::<u64>();

// Every field is one word and there is no padding: the views below lean on it.
const _: () = assert!(size_of::<usize>() == size_of::<u64>());
const _: () = {
    let tables = SPANS * 4 + SPANS * 3 + HOLES * 2 + ZOMBIES * 3 + PAGES * 2 + ROOTS + 6;
    assert!(POOL_WORDS == 4 + tables);
    assert!(size_of::<Pool>() == POOL_WORDS * size_of::<u64>());
    assert!(size_of::<Reply>() == size_of::<Pool>() + 5 * size_of::<u64>());
    assert!(size_of::<Manager>() == size_of::<Pool>() + (3 * SMALLS + 3) * size_of::<u64>());
    assert!(size_of::<ManagerReply>() == size_of::<Manager>() + 5 * size_of::<u64>());
};

/// Views of a struct of words.
macro_rules! words {
    ($seen:ident, $words:ident) => {
        impl $seen {
            /// The struct of these words.
            pub fn from_words(words: [u64; $words]) -> Self {
                // SAFETY: it is words without padding, and any words are one.
                unsafe { std::mem::transmute(words) }
            }

            /// Its words, in the order of its fields.
            pub fn words(&self) -> &[u64; $words] {
                // SAFETY: it is words without padding.
                unsafe { &*(self as *const Self).cast() }
            }
        }
    };
}

words!(Pool, POOL_WORDS);
words!(Reply, REPLY_WORDS);
words!(Manager, MANAGER_WORDS);
words!(ManagerReply, MANAGER_REPLY_WORDS);

impl Pool {
    /// A closed pool.
    pub fn closed() -> Self {
        Self::from_words([0; POOL_WORDS])
    }
}

impl Manager {
    /// A closed manager.
    pub fn closed() -> Self {
        Self::from_words([0; MANAGER_WORDS])
    }
}

/// A slice of the library is its first element's place, then its length.
mod library {
    use super::{Manager, ManagerReply, Pool, Reply};

    extern "C" {
        pub fn pool_open(
            granularity: u64,
            override_size: u64,
            va_size: u64,
            initial_pages: u64,
            initial_stream: u64,
            answers: *const u64,
            answers_len: usize,
            log: *mut u64,
            log_len: usize,
        ) -> Reply;
        pub fn pool_malloc(
            pool: Pool,
            bytes: u64,
            stream: u64,
            answers: *const u64,
            answers_len: usize,
            log: *mut u64,
            log_len: usize,
        ) -> Reply;
        pub fn pool_free(
            pool: Pool,
            address: u64,
            answers: *const u64,
            answers_len: usize,
            log: *mut u64,
            log_len: usize,
        ) -> Reply;
        pub fn pool_close(
            pool: Pool,
            answers: *const u64,
            answers_len: usize,
            log: *mut u64,
            log_len: usize,
        ) -> Reply;
        pub fn manager_open(
            granularity: u64,
            override_size: u64,
            va_size: u64,
            initial_pages: u64,
            initial_stream: u64,
            answers: *const u64,
            answers_len: usize,
            log: *mut u64,
            log_len: usize,
        ) -> ManagerReply;
        pub fn manager_malloc(
            manager: Manager,
            bytes: u64,
            stream: u64,
            answers: *const u64,
            answers_len: usize,
            log: *mut u64,
            log_len: usize,
        ) -> ManagerReply;
        pub fn manager_free(
            manager: Manager,
            address: u64,
            answers: *const u64,
            answers_len: usize,
            log: *mut u64,
            log_len: usize,
        ) -> ManagerReply;
        pub fn manager_close(
            manager: Manager,
            answers: *const u64,
            answers_len: usize,
            log: *mut u64,
            log_len: usize,
        ) -> ManagerReply;
        pub fn manager_reset_highest(manager: Manager) -> Manager;
    }
}

// The calls are safe: the library is proved to end without fault for every value, argument, list
// of answers and log, to write to the log alone, and to keep nothing. Answers are
// pairs of code and value; the log has four numbers a record.

/// Opens a pool.
pub fn open(
    granularity: u64,
    override_size: u64,
    va_size: u64,
    initial_pages: u64,
    initial_stream: u64,
    answers: &[u64],
    log: &mut [u64],
) -> Reply {
    // SAFETY: both slices live through the call, and the structs are the library's own.
    unsafe {
        library::pool_open(
            granularity,
            override_size,
            va_size,
            initial_pages,
            initial_stream,
            answers.as_ptr(),
            answers.len(),
            log.as_mut_ptr(),
            log.len(),
        )
    }
}

/// Asks for a buffer.
pub fn malloc(pool: &Pool, bytes: u64, stream: u64, answers: &[u64], log: &mut [u64]) -> Reply {
    let (lent, pairs) = (answers.as_ptr(), answers.len());
    // SAFETY: as for open.
    unsafe {
        library::pool_malloc(
            *pool,
            bytes,
            stream,
            lent,
            pairs,
            log.as_mut_ptr(),
            log.len(),
        )
    }
}

/// Gives a buffer back.
pub fn free(pool: &Pool, address: u64, answers: &[u64], log: &mut [u64]) -> Reply {
    let (lent, pairs) = (answers.as_ptr(), answers.len());
    // SAFETY: as for open.
    unsafe { library::pool_free(*pool, address, lent, pairs, log.as_mut_ptr(), log.len()) }
}

/// Gives everything back.
pub fn close(pool: &Pool, answers: &[u64], log: &mut [u64]) -> Reply {
    let (lent, pairs) = (answers.as_ptr(), answers.len());
    // SAFETY: as for open.
    unsafe { library::pool_close(*pool, lent, pairs, log.as_mut_ptr(), log.len()) }
}
