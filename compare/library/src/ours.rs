//! The library's pool on a card of its own, which answers as the Rust's does.

use caldarimpu::{Answers, Code, Config, Happened, Pool, Refusal};
use compare::{
    card::RandomCard,
    session::{Answered, Call, Outcome},
};
use original::driver::{Answer, Answers as _, Record, Word};

/// A random card as a driver. It notes its calls, and how the pool's call ended.
pub struct Card {
    pub card: RandomCard,
    seen: Vec<Record>,
    /// The streams of small buffers, which no record tells.
    small_streams: Vec<u64>,
    passed_over: Vec<Record>,
    happened: Option<Told>,
}

/// What the pool tells of a call.
pub struct Told {
    pub outcome: Outcome,
    pub text: String,
    pub runs: u64,
}

impl Card {
    pub fn new(card: RandomCard) -> Self {
        Self {
            card,
            seen: Vec::new(),
            small_streams: Vec::new(),
            passed_over: Vec::new(),
            happened: None,
        }
    }

    /// Answers a driver call, and notes it as docs/RULES.md 2.1 says.
    pub fn lend(&mut self, wanted: Record) -> Answer {
        let answer = self.card.lend(wanted);
        let (first, second) = match wanted.word {
            Word::Reserve | Word::Create | Word::Small if answer.code == 0 => {
                (answer.value, wanted.second)
            }
            Word::Asked => (wanted.first, u64::from(answer.is_complete())),
            _ => (wanted.first, wanted.second),
        };
        self.seen.push(Record {
            first,
            second,
            code: answer.code as u64,
            ..wanted
        });
        answer
    }

    /// The same of a small buffer.
    pub fn lend_on(&mut self, wanted: Record, stream: u64) -> Answer {
        self.small_streams.push(stream);
        self.lend(wanted)
    }

    /// The driver calls since the last time.
    pub fn take_seen(&mut self) -> Vec<Record> {
        std::mem::take(&mut self.seen)
    }

    /// The streams of small buffers since the last time.
    pub fn take_small_streams(&mut self) -> Vec<u64> {
        std::mem::take(&mut self.small_streams)
    }

    /// The failures since the last time that, so the pool says, ended no call.
    pub fn take_passed_over(&mut self) -> Vec<Record> {
        std::mem::take(&mut self.passed_over)
    }

    /// The one call that was told since the last time.
    pub fn take_happened(&mut self) -> Option<Told> {
        self.happened.take()
    }
}

impl Answers for Card {
    fn answer(&mut self, wanted: caldarimpu::Record) -> Result<u64, Code> {
        value_of(self.lend(record_of(&wanted)))
    }

    fn answer_on(&mut self, wanted: caldarimpu::Record, stream: u64) -> Result<u64, Code> {
        value_of(self.lend_on(record_of(&wanted), stream))
    }

    fn told(&mut self, call: &Happened) {
        assert!(self.happened.is_none(), "one call is told as two");
        self.happened = Some(Told {
            outcome: outcome_of(call),
            text: call.to_string(),
            runs: call.runs,
        });
    }

    fn warned(&mut self, failed: caldarimpu::Record) {
        self.passed_over.push(record_of(&failed));
    }
}

fn value_of(answer: Answer) -> Result<u64, Code> {
    Code::new(answer.code as u64).map_or(Ok(answer.value), Err)
}

fn outcome_of(call: &Happened) -> Outcome {
    let records = call.records.iter().map(record_of);
    Outcome {
        records: records.collect(),
        result: Answered {
            first: call.first,
            second: call.second,
            answer: call.answer,
        },
    }
}

/// The same record, as the Rust's driver has it.
pub fn record_of(record: &caldarimpu::Record) -> Record {
    let word = compare::text::driver_word(record.word.name());
    Record {
        word: word.expect("the words are the same"),
        first: record.first,
        second: record.second,
        code: record.code,
    }
}

/// The pool of a session: there from its opening to its close.
#[derive(Default)]
pub struct Ours(pub Option<Pool>);

impl Ours {
    /// Runs a call and gives its two values.
    pub fn run(&mut self, card: &mut Card, call: Call) -> Result<(u64, u64), Refusal> {
        match call {
            Call::Open {
                page_size,
                va_size,
                initial_pages,
            } => {
                let pool = self.0.insert(Pool::open(
                    card,
                    Config {
                        initial_pages,
                        ..Config::new(page_size, va_size)
                    },
                )?);
                Ok((pool.value().roots.cells[0], pool.page_size()))
            }
            Call::Malloc { bytes, stream } => {
                let buffer = self.pool().malloc(card, bytes, stream)?;
                Ok((buffer.address, buffer.size))
            }
            Call::Free { address } => {
                let freed = self.pool().free(card, address)?;
                Ok((freed.size, freed.stream))
            }
            Call::Close => {
                let pool = self.0.take().expect("the pool is open");
                Ok((pool.close(card)?, 0))
            }
        }
    }

    fn pool(&mut self) -> &mut Pool {
        self.0.as_mut().expect("the pool is open")
    }
}
