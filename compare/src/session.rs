//! One pool, from its opening to its close, with the calls and answers of docs/RULES.md 4.

use std::{
    any::Any,
    cell::Cell,
    collections::BTreeMap,
    panic::{self, AssertUnwindSafe},
};

use original::{
    driver::{self, Answers, Record},
    error::MemoryError,
    memory_manager::Pool,
    stream::{CudaStream, StreamGuard},
    tables::Tables,
};

#[derive(Clone, Copy, Debug, PartialEq, Eq)]
pub enum Call {
    Open {
        page_size: u64,
        va_size: u64,
        initial_pages: u64,
    },
    Malloc {
        bytes: u64,
        stream: u64,
    },
    Free {
        address: u64,
    },
    Close,
}

/// The three numbers of a result line.
#[derive(Clone, Copy, Debug, PartialEq, Eq)]
pub struct Answered {
    pub first: u64,
    pub second: u64,
    pub answer: u64,
}

#[derive(Clone, Debug)]
pub struct Outcome {
    pub records: Vec<Record>,
    pub result: Answered,
}

thread_local! {
    static IN_A_CALL: Cell<bool> = const { Cell::new(false) };
}

/// Tells the Rust's panics, which its caller reports, from faults of our own.
pub fn is_in_a_call() -> bool {
    IN_A_CALL.get()
}

/// Not to be sent on: the driver's card belongs to the thread.
#[derive(Default)]
pub struct Session {
    pool: Option<Pool>,
    streams: Streams,
}

/// The original tells streams apart by identity, so one of each number is kept.
#[derive(Default)]
pub(crate) struct Streams(BTreeMap<u64, StreamGuard>);

impl Streams {
    pub fn get(&mut self, number: u64) -> StreamGuard {
        let make = || {
            driver::number_next_stream(number);
            StreamGuard::new(CudaStream::new_non_blocking().expect("a stream is made"))
        };
        self.0.entry(number).or_insert_with(make).clone()
    }
}

/// What the original does, or how it panicked.
pub(crate) fn caught<T>(act: impl FnOnce() -> T) -> Result<T, String> {
    IN_A_CALL.set(true);
    let result = panic::catch_unwind(AssertUnwindSafe(act));
    IN_A_CALL.set(false);
    result.map_err(|payload| panic_text(payload.as_ref()))
}

impl Session {
    /// A session on a new card. The pool is opened by its first call.
    pub fn new(page_size: u64, answers: Box<dyn Answers>) -> Self {
        driver::insert_card(page_size as usize, answers);
        Self::default()
    }

    /// `None` before the opening and after the close.
    pub fn tables(&self) -> Option<Tables> {
        self.pool.as_ref().map(Pool::tables)
    }

    /// Runs a call, or says how the Rust panicked; nothing can be done with the session then.
    pub fn run(&mut self, call: Call) -> Result<Outcome, String> {
        let zombies = self.tables().map_or(0, |tables| tables.zombies.len());
        let result = caught(|| self.answer(call)).inspect_err(|_| {
            std::mem::forget(self.pool.take());
        })?;
        let mut records = driver::take_records();
        if call == Call::Close {
            sort_pages(&mut records, zombies);
        }
        Ok(Outcome { records, result })
    }

    /// Runs a call with no net for panics: for a benchmark.
    pub fn answer(&mut self, call: Call) -> Answered {
        match call {
            Call::Open {
                va_size,
                initial_pages,
                ..
            } => {
                let pool = Pool::open(va_size as usize, initial_pages as usize);
                let (base, page_size) = (pool.base(), pool.page_size());
                self.pool = Some(pool);
                answered(base, page_size, 0)
            }
            Call::Malloc { bytes, stream } => {
                let stream = self.streams.get(stream);
                match self.open_pool().malloc(bytes as usize, &stream) {
                    Ok(address) => answered(address, bytes, 0),
                    Err(error) => answer_of_error(error),
                }
            }
            Call::Free { address } => match self.open_pool().free(address) {
                Ok((size, stream)) => {
                    answered(size as u64, driver::stream_number(stream.as_raw()), 0)
                }
                Err(MemoryError::InvalidPointer) => answered(address, 0, 16),
                Err(error) => answer_of_error(error),
            },
            Call::Close => {
                drop(self.pool.take());
                answered(0, 0, 0)
            }
        }
    }

    fn open_pool(&mut self) -> &mut Pool {
        self.pool.as_mut().expect("the pool is open")
    }
}

/// A pool left open stays so: its close would make driver calls that belong to no call.
impl Drop for Session {
    fn drop(&mut self) {
        std::mem::forget(self.pool.take());
    }
}

pub(crate) fn answered(first: u64, second: u64, answer: u64) -> Answered {
    Answered {
        first,
        second,
        answer,
    }
}

pub(crate) fn answer_of_error(error: MemoryError) -> Answered {
    match error {
        MemoryError::RequestedExceedsVaChunk { requested, va_size } => {
            answered(requested as u64, va_size as u64, 8)
        }
        MemoryError::ReserveFailed { size, page_size } => {
            answered(size as u64, page_size as u64, 12)
        }
        MemoryError::OutOfMemory {
            requested,
            available,
        } => answered(requested as u64, available as u64, 13),
        MemoryError::Cuda(error) => answered(error.code as u64, 0, 14),
        error => panic!("the rules have no number for: {error}"),
    }
}

/// The Rust closes its pages in no order of its own: their unmap and release pairs, after the sync
/// and the zombies and before the roots, are put in ascending address.
pub(crate) fn sort_pages(records: &mut [Record], zombies: usize) {
    let start = 1 + zombies;
    let roots = records
        .iter()
        .filter(|record| record.word == driver::Word::Giveback);
    let end = records.len() - roots.count();
    let mut pairs: Vec<[Record; 2]> = (records[start..end].chunks(2))
        .map(|pair| [pair[0], pair[1]])
        .collect();
    pairs.sort_by_key(|[unmap, _]| unmap.first);
    records[start..end].copy_from_slice(&pairs.concat());
}

/// A panic's message on one line.
pub fn panic_text(payload: &(dyn Any + Send)) -> String {
    let text = (payload.downcast_ref::<String>().map(String::as_str))
        .or_else(|| payload.downcast_ref::<&str>().copied())
        .unwrap_or("no message");
    text.split_whitespace().collect::<Vec<_>>().join(" ")
}
