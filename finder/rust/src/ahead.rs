//! A call run to its end, by guessing ahead.
//!
//! The library runs a call on answers that it is lent. Nobody has them before the driver calls are
//! made, and which driver calls those are only a run tells. So a call is run on guesses, then its
//! driver calls are made in the log's order, and where one is answered otherwise the call is run
//! again on what is known by then. A log's record depends on the answers before it alone. So each
//! driver call that is made stands in the final log too.
//!
//! Guessed is that every driver call succeeds and that no event is complete. A base can't be
//! guessed. A handle can't either, but nothing hangs on it: a page created under another handle is
//! mapped, moved and released by that one, and all else stays. So the driver calls go on with the
//! driver's handle in place of the guessed one, and a last run puts it into the pool. A small
//! buffer's pointer is the only answer of its malloc: a second run has it.

use crate::{
    driver::{make, Answer},
    ffi::{Page, LOG},
    value::{Ran, Value},
    Call, Driver, Record, Word,
};

/// Guessed handles start here: no base ends at or below 2^63 behind it, so a run ends where it
/// wants a base.
const GUESSED: u64 = 1 << 63;

const SUCCESS: u64 = 0;

pub(crate) struct Ahead {
    log: Box<[u64]>,
    /// A pair for each record that a log has room for, which is more than any call takes: the
    /// driver's for the calls that were made, then guesses.
    answers: Box<[u64]>,
    /// The driver calls made in this call.
    made: Vec<Record>,
    runs: u64,
}

impl Ahead {
    pub fn new() -> Self {
        let guesses = (0..LOG).flat_map(|at| [SUCCESS, guess(at)]);
        Self {
            log: vec![0; 4 * LOG].into(),
            answers: guesses.collect(),
            made: Vec::new(),
            runs: 0,
        }
    }

    /// Runs a call until every answer that it took is the driver's.
    pub fn settle<V: Value>(&mut self, driver: &mut dyn Driver, value: &V, call: Call) -> Ran<V> {
        self.forget();
        loop {
            let ran = value.run(call, &self.answers, &mut self.log);
            self.runs += 1;
            self.check(ran.records);
            let mut making = |wanted: Record| make(driver, call, value.small(), wanted);
            if self.drive(&mut making, value.pool().pages.entries(), ran.records) {
                return ran;
            }
        }
    }

    /// The driver calls of the last call, up to where the driver panicked if it did.
    pub fn made(&self) -> &[Record] {
        &self.made
    }

    /// How often the library was run for it.
    pub fn runs(&self) -> u64 {
        self.runs
    }

    /// Guesses again where the call before had answers.
    fn forget(&mut self) {
        for at in 0..self.made.len() {
            let (code, value) = (SUCCESS, guess(at));
            self.lend(at, Answer { code, value });
        }
        self.made.clear();
        self.runs = 0;
    }

    /// What was made must stand in every later log, or the card has seen calls that the pool never
    /// made.
    fn check(&self, records: usize) {
        let stands = self.made.len() <= records
            && (self.made.iter().enumerate()).all(|(at, made)| self.record(at) == *made);
        assert!(stands, "libfinder.a takes a driver call back");
    }

    /// Makes the log's driver calls that were not made yet, up to the first that is answered
    /// otherwise than guessed. Says whether all were as guessed. `active` are the pool's pages
    /// before the call.
    fn drive(
        &mut self,
        make: &mut dyn FnMut(Record) -> Answer,
        active: &[Page],
        records: usize,
    ) -> bool {
        let mut names = Names::default();
        for at in self.made.len()..records {
            let guessed = names.with_real(self.record(at));
            let answer = make(guessed);
            let record = guessed.answered(answer);
            let goes_on = match (record.word, record.code) {
                (Word::Create, SUCCESS) => !self.is_in_use(record, active),
                _ => record == guessed,
            };
            self.lend(at, answer);
            self.made.push(record);
            if !goes_on {
                return false;
            }
            if record != guessed {
                names.add(guessed.first, record.first);
            }
        }
        names.is_empty()
    }

    /// Whether a page has been created under a handle that another has: the pool won't believe it.
    /// Even the guessed handle can be one: the run may know the page that has it by another name.
    fn is_in_use(&self, created: Record, active: &[Page]) -> bool {
        active.iter().any(|page| page.handle == created.first) || self.made.contains(&created)
    }

    fn lend(&mut self, at: usize, answer: Answer) {
        self.answers[2 * at] = answer.code;
        self.answers[2 * at + 1] = answer.value;
    }

    fn record(&self, at: usize) -> Record {
        let numbers = [0, 1, 2, 3].map(|cell| self.log[4 * at + cell]);
        Record::of_numbers(numbers).expect("libfinder.a writes the rules' words")
    }
}

/// A number for each place, so that no handle comes twice. None is 1: an event isn't complete.
fn guess(at: usize) -> u64 {
    GUESSED + at as u64
}

/// Guessed handles of one run, each with the driver's.
#[derive(Default)]
struct Names(Vec<(u64, u64)>);

impl Names {
    fn add(&mut self, guessed: u64, real: u64) {
        self.0.push((guessed, real));
    }

    fn is_empty(&self) -> bool {
        self.0.is_empty()
    }

    /// The driver call with the driver's handle. A guessed one can be no other page's: then the
    /// pool would not have believed it, and the run would have ended there.
    fn with_real(&self, wanted: Record) -> Record {
        let Record { first, second, .. } = wanted;
        match wanted.word {
            Word::Map => Record {
                second: self.real(second),
                ..wanted
            },
            Word::Release => Record {
                first: self.real(first),
                ..wanted
            },
            _ => wanted,
        }
    }

    fn real(&self, handle: u64) -> u64 {
        // From the last: a page is mapped as soon as it is created.
        let name = self.0.iter().rev().find(|(guessed, _)| *guessed == handle);
        name.map_or(handle, |(_, real)| *real)
    }
}

#[cfg(test)]
mod tests;
