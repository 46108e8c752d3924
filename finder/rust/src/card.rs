//! A card on paper.

use std::collections::BTreeMap;

use crate::{driver::Answer, Answers, Code, Happened, Record, Word};

/// A made-up driver for tests and first steps. It counts out bases and handles, notes its calls and
/// the pool's, and fails where it is told to.
#[derive(Clone, Default)]
pub struct Card {
    reserved: u64,
    created: u64,
    /// Bytes of small buffers, each in whole lots.
    small: u64,
    /// Events below this id are complete.
    done: u64,
    failures: BTreeMap<Word, Failure>,
    values: BTreeMap<Word, u64>,
    seen: Vec<Record>,
    streams: Vec<u64>,
    passed_over: Vec<Record>,
    trace: String,
}

/// Small buffers start at multiples of this.
const LOT: u64 = 256;
/// No reservation ends behind 2^63.
const FIRST_SMALL: u64 = (1 << 63) + LOT;

#[derive(Clone, Copy)]
struct Failure {
    /// Calls of the word that still succeed.
    after: u64,
    code: Code,
}

impl Card {
    /// A new card.
    pub fn new() -> Self {
        Self::default()
    }

    /// Lets one call of a word fail, after so many that succeed.
    pub fn fail(&mut self, word: Word, after: u64, code: u64) {
        let code = Code::new(code).expect("0 is success, not a failure");
        self.failures.insert(word, Failure { after, code });
    }

    /// Lets the next reserve, create or small that succeeds give this base, handle or pointer.
    pub fn give(&mut self, word: Word, value: u64) {
        self.values.insert(word, value);
    }

    /// Completes every event with an id below this.
    pub fn finish_below(&mut self, id: u64) {
        self.done = id;
    }

    /// The driver calls so far, with their answers.
    pub fn seen(&self) -> &[Record] {
        &self.seen
    }

    /// The streams of the driver calls so far for small buffers, in order.
    pub fn small_streams(&self) -> &[u64] {
        &self.streams
    }

    /// The failures so far of which the pool said that they ended no call. It writes no line.
    pub fn failures(&self) -> &[Record] {
        &self.passed_over
    }

    /// The pool's trace so far.
    pub fn trace(&self) -> &str {
        &self.trace
    }

    fn failure(&mut self, word: Word) -> Option<Code> {
        let failure = self.failures.get_mut(&word)?;
        if failure.after > 0 {
            failure.after -= 1;
            return None;
        }
        self.failures.remove(&word).map(|failure| failure.code)
    }

    /// Bases are multiples of va_size, one apart; handles count from 1; small buffers lie one behind
    /// the other, above every base.
    fn value(&mut self, wanted: Record) -> u64 {
        let given = self.values.remove(&wanted.word);
        match wanted.word {
            Word::Reserve => {
                self.reserved += 2;
                given.unwrap_or(self.reserved * wanted.second)
            }
            Word::Create => {
                self.created += 1;
                given.unwrap_or(self.created)
            }
            Word::Small => {
                let pointer = FIRST_SMALL + self.small;
                self.small += wanted.second.next_multiple_of(LOT);
                given.unwrap_or(pointer)
            }
            Word::Asked => u64::from(wanted.first < self.done),
            _ => 0,
        }
    }
}

impl Answers for Card {
    fn answer(&mut self, wanted: Record) -> Result<u64, Code> {
        let answer = match self.failure(wanted.word) {
            Some(code) => Err(code),
            None => Ok(self.value(wanted)),
        };
        self.seen.push(wanted.answered(Answer::of(answer)));
        answer
    }

    fn answer_on(&mut self, wanted: Record, stream: u64) -> Result<u64, Code> {
        self.streams.push(stream);
        self.answer(wanted)
    }

    fn told(&mut self, call: &Happened) {
        self.trace += &call.to_string();
    }

    fn warned(&mut self, failed: Record) {
        self.passed_over.push(failed);
    }
}
