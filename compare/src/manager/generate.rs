//! A random session that the Rust's manager itself drives.

use std::{cell::RefCell, rc::Rc};

use original::{
    driver::{Answers, Record, Word},
    tables::Small,
};

use super::{
    choose::{Chosen, ManagerChooser},
    session::ManagerSession,
    Request, State, Step,
};
use crate::{
    card::{Mood, RandomCard},
    generate::opening,
    session::{answered, Call, Outcome},
    words::{Failure, Words},
};

/// As `crate::generate::generate`, for the manager.
pub fn generate(
    seed: u64,
    calls: u64,
    patience: u64,
    words: Words,
    each: impl FnMut(&Step),
) -> Result<bool, String> {
    let card = Rc::new(RefCell::new(RandomCard::new(seed, words)));
    let mut generator = Generator {
        session: ManagerSession::new(words.config.page_size, Box::new(card.clone())),
        card,
        chooser: ManagerChooser::new(seed, words),
        state: State::default(),
        each,
    };
    generator.call(opening(words))?;
    generator.card.borrow_mut().mood = Mood::Ordinary;
    for _ in 0..calls {
        generator.next()?;
    }
    let mut came_up = true;
    if words.fail != Failure::None {
        generator.card.borrow_mut().mood = Mood::Failing;
        came_up = generator.until_failure(patience)?;
    }
    if words.close {
        generator.card.borrow_mut().mood = Mood::Closing;
        generator.call(Call::Close)?;
    }
    Ok(came_up)
}

struct Generator<Each> {
    session: ManagerSession,
    card: Rc<RefCell<RandomCard>>,
    chooser: ManagerChooser,
    state: State,
    each: Each,
}

impl<Each: FnMut(&Step)> Generator<Each> {
    /// A failure of small buffers stops no pool and so isn't the one.
    fn until_failure(&mut self, patience: u64) -> Result<bool, String> {
        for _ in 0..patience {
            if self.next()? {
                return Ok(true);
            }
        }
        Ok(false)
    }

    /// One call; says whether it stopped the pool.
    fn next(&mut self) -> Result<bool, String> {
        loop {
            match self.chooser.next(&self.state) {
                Chosen::Call(call) => return self.call(call),
                Chosen::ResetHighest => self.reset_highest(),
            }
        }
    }

    fn reset_highest(&mut self) {
        self.session.reset_highest();
        let nothing = Outcome {
            records: Vec::new(),
            result: answered(0, 0, 0),
        };
        self.hand_on(Request::ResetHighest, nothing, Vec::new(), None);
    }

    fn call(&mut self, call: Call) -> Result<bool, String> {
        let (outcome, streams) = (self.session.run(call))
            .map_err(|panic| format!("the Rust panics at {call:?}: {panic}"))?;
        let last = outcome.records.last().copied();
        let failed = last.filter(|last| last.word == Word::DropSmall && last.code > 0);
        let kept = failed.filter(|_| call != Call::Close).map(|record| Small {
            pointer: record.first,
            size: record.second,
            stream: streams[0],
        });
        let is_small = last.is_some_and(|last| last.word.is_of_small_buffers());
        let stopped = outcome.result.answer == 14 && !is_small;
        self.hand_on(Request::Call(call), outcome, streams, kept);
        if let Some(kept) = kept {
            self.free_again(kept);
        }
        Ok(stopped)
    }

    /// The Rust has taken the entry out and lowered its bytes, though its driver has not taken the
    /// buffer back. The layer keeps both, so it is asked again until that succeeds; the Rust's card
    /// is told, so that the two stay alike.
    fn free_again(&mut self, kept: Small) {
        let wanted = Record {
            word: Word::DropSmall,
            first: kept.pointer,
            second: kept.size,
            code: 0,
        };
        loop {
            let code = self.card.borrow_mut().lend(wanted).code as u64;
            let record = Record { code, ..wanted };
            let result = match code {
                0 => answered(kept.size, kept.stream, 0),
                code => answered(code, 0, 14),
            };
            let outcome = Outcome {
                records: vec![record],
                result,
            };
            let request = Request::FreeAgain(kept.pointer);
            self.hand_on(
                request,
                outcome,
                vec![kept.stream],
                (code > 0).then_some(kept),
            );
            if code == 0 {
                return self.session.forget(kept.pointer);
            }
        }
    }

    fn hand_on(
        &mut self,
        request: Request,
        outcome: Outcome,
        small_streams: Vec<u64>,
        kept: Option<Small>,
    ) {
        let mut after = self.session.state();
        if let (Some(state), Some(kept)) = (&mut after, kept) {
            state.small.push(kept);
            state.small.sort();
            state.current += kept.size;
        }
        let step = Step {
            request,
            outcome,
            small_streams,
            after,
        };
        (self.each)(&step);
        self.state = step.after.unwrap_or_default();
    }
}
