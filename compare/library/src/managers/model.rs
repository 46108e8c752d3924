//! A plain layer above the library's pool, right or wrong in one thing: it shows that the lockstep
//! follows what is right and finds out what is wrong.

use std::marker::PhantomData;

use compare::{
    manager::{rounded, State},
    session::{Answered, Call},
};
use original::{
    driver::{Answer, Record, Word},
    tables::Small,
};

use super::layer::{Layer, Ran};
use crate::{
    ours::{Card, Ours},
    tables::tables_of,
};

#[derive(Clone, Copy, PartialEq, Eq)]
pub enum Wrong {
    Nothing,
    Unrounded,
    PageIsSmall,
    LetsGoOfAFailedDrop,
    CountsAFailedSmall,
    PoolFirst,
    HighestFalls,
    OtherStream,
    ClosesBackwards,
    StopsAtAFailure,
}

pub trait Fault {
    const WRONG: Wrong;
}

pub struct Sound;

impl Fault for Sound {
    const WRONG: Wrong = Wrong::Nothing;
}

pub struct Model<F> {
    pool: Ours,
    page_size: u64,
    /// In the order in which they came.
    small: Vec<Small>,
    current: u64,
    highest: u64,
    stopped: bool,
    fault: PhantomData<F>,
}

impl<F: Fault> Default for Model<F> {
    fn default() -> Self {
        Self {
            pool: Ours::default(),
            page_size: 0,
            small: Vec::new(),
            current: 0,
            highest: 0,
            stopped: false,
            fault: PhantomData,
        }
    }
}

const STOPPED: Answered = Answered {
    first: 0,
    second: 0,
    answer: 2,
};

impl<F: Fault> Layer for Model<F> {
    fn run(&mut self, card: &mut Card, call: Call) -> Result<Ran, String> {
        Ok(Ran {
            result: self.answer(card, call),
            trace: None,
            runs: 0,
        })
    }

    fn reset_highest(&mut self) {
        self.highest = self.current;
    }

    fn state(&self) -> Option<State> {
        let pool = self.pool.0.as_ref()?;
        let mut small = self.small.clone();
        small.sort();
        Some(State {
            tables: tables_of(pool.value()),
            small,
            current: self.current,
            highest: self.highest,
        })
    }
}

impl<F: Fault> Model<F> {
    fn answer(&mut self, card: &mut Card, call: Call) -> Answered {
        if self.stopped && call != Call::Close {
            return STOPPED;
        }
        match call {
            Call::Malloc { bytes, stream } => self.malloc(card, bytes, stream),
            Call::Free { address } => self.free(card, address),
            Call::Close => {
                let mut small = std::mem::take(&mut self.small);
                if F::WRONG == Wrong::ClosesBackwards {
                    small.reverse();
                }
                for small in small {
                    drop_small(card, small);
                }
                self.ask(card, call)
            }
            Call::Open { page_size, .. } => {
                self.page_size = page_size;
                self.ask(card, call)
            }
        }
    }

    fn malloc(&mut self, card: &mut Card, bytes: u64, stream: u64) -> Answered {
        let small = match F::WRONG {
            Wrong::PageIsSmall => bytes <= self.page_size,
            _ => bytes < self.page_size,
        };
        if small {
            return self.small_malloc(card, bytes, stream);
        }
        let whole = rounded(bytes, self.page_size);
        let answered = self.ask(
            card,
            Call::Malloc {
                bytes: whole,
                stream,
            },
        );
        if answered.answer == 0 {
            match F::WRONG {
                Wrong::Unrounded => self.grow(bytes),
                _ => self.grow(whole),
            }
        }
        answered
    }

    fn small_malloc(&mut self, card: &mut Card, size: u64, stream: u64) -> Answered {
        let wanted = Record {
            word: Word::Small,
            first: 0,
            second: size,
            code: 0,
        };
        let answer = card.lend_on(wanted, stream);
        if answer.code != 0 {
            if F::WRONG == Wrong::CountsAFailedSmall {
                self.grow(size);
                self.current -= size;
            }
            self.stopped = F::WRONG == Wrong::StopsAtAFailure;
            return failed(answer.code);
        }
        let pointer = answer.value;
        self.small.push(Small {
            pointer,
            size,
            stream,
        });
        self.grow(size);
        answered(pointer, size, 0)
    }

    fn free(&mut self, card: &mut Card, address: u64) -> Answered {
        if F::WRONG == Wrong::PoolFirst {
            let pool = self.pool.0.as_ref().expect("the pool is open").value();
            if pool.live.entries().iter().any(|live| live.start == address) {
                return self.whole_free(card, address);
            }
        }
        match self.small.iter().position(|small| small.pointer == address) {
            Some(place) => self.small_free(card, place),
            None => self.whole_free(card, address),
        }
    }

    fn whole_free(&mut self, card: &mut Card, address: u64) -> Answered {
        let answered = self.ask(card, Call::Free { address });
        if answered.answer == 0 {
            self.lower(answered.first);
        }
        answered
    }

    fn small_free(&mut self, card: &mut Card, place: usize) -> Answered {
        let small = self.small[place];
        let other = u64::from(F::WRONG == Wrong::OtherStream);
        let stream = small.stream.wrapping_add(other);
        let answer = drop_small(card, Small { stream, ..small });
        if answer.code == 0 || F::WRONG == Wrong::LetsGoOfAFailedDrop {
            self.small.remove(place);
            self.lower(small.size);
        }
        match answer.code {
            0 => answered(small.size, small.stream, 0),
            code => failed(code),
        }
    }

    fn grow(&mut self, bytes: u64) {
        self.current += bytes;
        self.highest = self.highest.max(self.current);
    }

    fn lower(&mut self, bytes: u64) {
        self.current -= bytes;
        if F::WRONG == Wrong::HighestFalls {
            self.highest = self.current;
        }
    }

    fn ask(&mut self, card: &mut Card, call: Call) -> Answered {
        // A refusal's values are told.
        let _ = self.pool.run(card, call);
        let told = card.take_happened().expect("the call is told");
        self.stopped |= told.outcome.result.answer == 14;
        told.outcome.result
    }
}

fn drop_small(card: &mut Card, small: Small) -> Answer {
    let wanted = Record {
        word: Word::DropSmall,
        first: small.pointer,
        second: small.size,
        code: 0,
    };
    card.lend_on(wanted, small.stream)
}

fn failed(code: i32) -> Answered {
    answered(code as u64, 0, 14)
}

fn answered(first: u64, second: u64, answer: u64) -> Answered {
    Answered {
        first,
        second,
        answer,
    }
}
