//! The manager above the pool (mod.rs of the original), whose sizes are bytes.

pub mod choose;
pub mod generate;
pub mod session;

use original::{
    driver::Record,
    tables::{Small, Tables},
};

use crate::{
    session::{Call, Outcome},
    text::{record_line, trace_of},
};

#[derive(Clone, Copy, Debug, PartialEq, Eq)]
pub enum Request {
    Call(Call),
    /// The most bytes held are from now on those held now. No trace shows it.
    ResetHighest,
    /// The free of a small buffer that the driver failed to take back. The Rust has no such buffer
    /// any more, so this one is the layer's alone.
    FreeAgain(u64),
}

/// What is held between calls.
#[derive(Clone, Debug, Default, PartialEq, Eq)]
pub struct State {
    pub tables: Tables,
    /// By ascending pointer.
    pub small: Vec<Small>,
    pub current: u64,
    pub highest: u64,
}

/// A request that was run, and what the layer must hold then: what the Rust holds, and a small
/// buffer that the driver failed to take back.
#[derive(Clone, Debug)]
pub struct Step {
    pub request: Request,
    pub outcome: Outcome,
    /// The stream of each record of small buffers.
    pub small_streams: Vec<u64>,
    /// `None` after the close.
    pub after: Option<State>,
}

/// The next multiple of the page size.
pub fn rounded(bytes: u64, page_size: u64) -> u64 {
    bytes.next_multiple_of(page_size)
}

/// A request's lines of the layer's trace: small buffers alone, before the close if there is one;
/// a malloc of the pool by its size in whole pages.
pub fn trace_of_step(step: &Step, page_size: u64) -> String {
    let is_small = |record: &&Record| record.word.is_of_small_buffers();
    let records = &step.outcome.records;
    let small: String = records.iter().filter(is_small).map(record_line).collect();
    let call = match step.request {
        Request::Call(Call::Close) => Call::Close,
        Request::Call(call) if small.is_empty() => call,
        _ => return small,
    };
    let call = match call {
        Call::Malloc { bytes, stream } => Call::Malloc {
            bytes: rounded(bytes, page_size),
            stream,
        },
        call => call,
    };
    let others = records.iter().filter(|record| !is_small(record)).copied();
    let outcome = Outcome {
        records: others.collect(),
        result: step.outcome.result,
    };
    small + &trace_of(call, &outcome)
}
