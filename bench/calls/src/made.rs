//! Sessions made up: the calls are chosen, and the Rust is run under a driver that notes what it
//! answers.

use std::{cell::RefCell, rc::Rc};

use compare::session::{Call, Session};
use original::{
    driver::{Answer, Answers, Record, Word},
    tables::Tables,
};

use crate::{kind::Kind, step::Step};

const PAGE: u64 = 64;
/// So large that one reservation serves every session.
const VA_SIZE: u64 = PAGE << 20;

/// Every call succeeds; events are complete from an id on.
struct Card {
    handles: u64,
    complete_from: u64,
    /// What this call was answered.
    noted: Vec<u64>,
}

impl Answers for Card {
    fn lend(&mut self, wanted: Record) -> Answer {
        let value = match wanted.word {
            Word::Reserve => VA_SIZE,
            Word::Create => {
                self.handles += 1;
                self.handles
            }
            Word::Asked => (wanted.first >= self.complete_from) as u64,
            _ => 0,
        };
        self.noted.extend([0, value]);
        Answer { code: 0, value }
    }
}

pub struct Maker {
    card: Rc<RefCell<Card>>,
    session: Session,
    steps: Vec<Step>,
}

/// A call that only leads up to those that are listed.
pub const UNLISTED: Option<&str> = None;

impl Maker {
    pub fn open() -> Self {
        let card = Rc::new(RefCell::new(Card {
            handles: 0,
            complete_from: u64::MAX,
            noted: Vec::new(),
        }));
        let session = Session::new(PAGE, Box::new(card.clone()));
        let mut maker = Self {
            card,
            session,
            steps: Vec::new(),
        };
        let open = Call::Open {
            page_size: PAGE,
            va_size: VA_SIZE,
            initial_pages: 0,
        };
        maker.run(open, UNLISTED);
        maker
    }

    /// Gives the address.
    pub fn malloc(&mut self, pages: usize, stream: usize, listed: Option<&'static str>) -> u64 {
        let (bytes, stream) = (pages as u64 * PAGE, stream as u64);
        self.run(Call::Malloc { bytes, stream }, listed)
    }

    pub fn free(&mut self, address: u64, listed: Option<&'static str>) {
        self.run(Call::Free { address }, listed);
    }

    pub fn close(&mut self, listed: Option<&'static str>) {
        self.run(Call::Close, listed);
    }

    pub fn none_complete(&mut self) {
        self.card.borrow_mut().complete_from = u64::MAX;
    }

    /// Only the event that was recorded last.
    pub fn last_complete(&mut self) {
        self.card.borrow_mut().complete_from = self.tables().counter - 1;
    }

    pub fn all_complete(&mut self) {
        self.card.borrow_mut().complete_from = 0;
    }

    pub fn tables(&self) -> Tables {
        self.session.tables().expect("the pool is open")
    }

    pub fn end(self) -> Vec<Step> {
        self.steps
    }

    fn run(&mut self, call: Call, listed: Option<&'static str>) -> u64 {
        let outcome = self.session.run(call).expect("the Rust answers");
        assert_eq!(outcome.result.answer, 0, "{call:?}");
        let words: Vec<Word> = outcome.records.iter().map(|record| record.word).collect();
        self.steps.push(Step {
            call,
            answers: std::mem::take(&mut self.card.borrow_mut().noted),
            kind: Kind::of(call, 0, &words),
            listed,
        });
        outcome.result.first
    }
}
