//! The Rust, by compare's session, on answers from a slice.

use std::{cell::RefCell, rc::Rc};

use compare::session::{Answered, Call, Session};
use original::driver::{self, Answer, Answers, Record};

#[derive(Default)]
struct Lent {
    answers: Vec<u64>,
    at: usize,
}

/// Past what was lent all succeeds, which only the close of `drop` comes to.
impl Answers for Lent {
    fn lend(&mut self, _wanted: Record) -> Answer {
        let number = |at: usize| self.answers.get(at).copied().unwrap_or_default();
        let answer = Answer {
            code: number(self.at) as i32,
            value: number(self.at + 1),
        };
        self.at += 2;
        answer
    }
}

pub struct Rust {
    lent: Rc<RefCell<Lent>>,
    session: Session,
}

impl Rust {
    pub fn new(page_size: u64) -> Self {
        let lent = Rc::<RefCell<Lent>>::default();
        let session = Session::new(page_size, Box::new(lent.clone()));
        Self { lent, session }
    }

    /// Lends the answers of the next call; not part of it.
    pub fn lend(&mut self, answers: &[u64]) {
        let mut lent = self.lent.borrow_mut();
        lent.answers.clear();
        lent.answers.extend_from_slice(answers);
        lent.at = 0;
        driver::make_room(answers.len() / 2);
    }

    pub fn run(&mut self, call: Call) -> Answered {
        self.session.answer(call)
    }

    /// The records of the last call, with the numbers that ours has for them.
    pub fn records(&mut self) -> Vec<[u64; 4]> {
        let records = driver::take_records().into_iter();
        records
            .map(|record| {
                [
                    record.word as u64 + 1,
                    record.first,
                    record.second,
                    record.code,
                ]
            })
            .collect()
    }
}

/// A pool that was left open would keep its memory, and the next replay get colder one.
impl Drop for Rust {
    fn drop(&mut self) {
        self.session.answer(Call::Close);
    }
}
