//! A random session that the Rust pool itself drives: an input that is also its output.

use std::{cell::RefCell, rc::Rc};

use original::tables::Tables;

use crate::{
    card::{Mood, RandomCard},
    choose::Chooser,
    replay::Step,
    session::{Call, Session},
    words::{Failure, Words},
};

/// Hands each call to `each` and says whether the call that is to fail came up, where there is one:
/// within `patience` calls after the last asked for. The Rust's own panics end it.
pub fn generate(
    seed: u64,
    calls: u64,
    patience: u64,
    words: Words,
    each: impl FnMut(&Step),
) -> Result<bool, String> {
    let card = Rc::new(RefCell::new(RandomCard::new(seed, words)));
    let mut generator = Generator {
        words,
        session: Session::new(words.config.page_size, Box::new(card.clone())),
        chooser: Chooser::new(seed, words),
        tables: None,
        each,
    };
    generator.run(opening(words))?;
    card.borrow_mut().mood = Mood::Ordinary;
    for _ in 0..calls {
        generator.next()?;
    }
    let mut came_up = true;
    if words.fail != Failure::None {
        card.borrow_mut().mood = Mood::Failing;
        came_up = generator.until_failure(patience)?;
    }
    if words.close {
        card.borrow_mut().mood = Mood::Closing;
        generator.run(Call::Close)?;
    }
    Ok(came_up)
}

pub(crate) fn opening(words: Words) -> Call {
    Call::Open {
        page_size: words.config.page_size,
        va_size: words.config.va_size,
        initial_pages: words.config.initial_pages,
    }
}

struct Generator<Each> {
    words: Words,
    session: Session,
    chooser: Chooser,
    tables: Option<Tables>,
    each: Each,
}

impl<Each: FnMut(&Step)> Generator<Each> {
    fn until_failure(&mut self, patience: u64) -> Result<bool, String> {
        for _ in 0..patience {
            if self.next()? == 14 {
                return Ok(true);
            }
        }
        Ok(false)
    }

    fn next(&mut self) -> Result<u64, String> {
        let tables = self.tables.as_ref().expect("the pool is open");
        let call = self.chooser.next(tables);
        self.run(call)
    }

    /// Runs a call and hands it on; gives its answer.
    fn run(&mut self, call: Call) -> Result<u64, String> {
        let outcome = (self.session.run(call))
            .map_err(|panic| format!("the Rust panics at {call:?}: {panic}"))?;
        let step = Step {
            config: self.words.config,
            call,
            outcome,
            before: self.tables.take(),
            after: self.session.tables(),
        };
        (self.each)(&step);
        self.tables = step.after;
        Ok(step.outcome.result.answer)
    }
}
