//! A malloc's records, parted into cleanup, fit and make room.

use original::{
    driver::Record,
    tables::{Range, Tables},
};

use super::{cleanup, Found};
use crate::{
    bounds::{asked_for_fit, missing, Config},
    replay::Step,
    session::Answered,
};

pub struct Malloc<'a> {
    pub config: Config,
    pub bytes: u64,
    pub stream: u64,
    pub result: Answered,
    pub missing: u64,
    pub before: &'a Tables,
    pub after: &'a Tables,
    /// After cleanup.
    pub holes: Vec<Range>,
    /// The number left by cleanup.
    pub zombies: usize,
    pub fit: &'a [Record],
    pub room: &'a [Record],
}

impl<'a> Malloc<'a> {
    /// Cleanup's rules are found on the way.
    pub fn new(step: &'a Step, bytes: u64, stream: u64, found: &mut Found) -> Self {
        let before = step.before.as_ref().expect("malloc needs an open pool");
        let after = step.after.as_ref().expect("malloc leaves the pool open");
        let (rest, holes, zombies) = cleanup::walk(&step.outcome.records, before, found);
        let (fit, room) = rest.split_at(asked_for_fit(bytes, stream, before));
        Self {
            config: step.config,
            bytes,
            stream,
            result: step.outcome.result,
            missing: missing(bytes, before),
            before,
            after,
            holes,
            zombies,
            fit,
            room,
        }
    }

    pub fn is_fit(&self) -> bool {
        self.result.answer == 0 && self.room.is_empty()
    }
}
