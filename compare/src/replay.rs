//! A trace's calls run again on the Rust, on the answers that its driver lines lend.

use std::{cell::RefCell, collections::VecDeque, rc::Rc};

use original::tables::Tables;

use crate::{
    bounds::{refusal_at_entry, Config, Watch},
    lent::{lent_by, nothing_like, Lent},
    session::{Call, Outcome, Session},
    text::{parse_line, Line},
};

/// A call that was run, with the tables around it.
#[derive(Clone, Debug)]
pub struct Step {
    pub config: Config,
    pub call: Call,
    pub outcome: Outcome,
    pub before: Option<Tables>,
    pub after: Option<Tables>,
}

/// A call read, not yet run: its answers may still be coming.
struct Waiting {
    line: usize,
    call: Call,
    answers: VecDeque<(u64, u64)>,
}

#[derive(Default)]
struct Replay {
    /// Filled here call by call, emptied by the driver.
    lent: Rc<RefCell<Lent>>,
    session: Session,
    config: Config,
    /// After answer 14 the pool is stopped while the Rust's goes on.
    stopped: bool,
}

/// Hands each call that was run to `each`. Ends with what is wrong at the first line that is
/// malformed or that the Rust cannot follow.
pub fn replay(text: &[u8], mut each: impl FnMut(&Step)) -> Result<(), String> {
    let mut replay = Replay::default();
    let mut waiting: Option<Waiting> = None;
    for (at, line) in lines(text).enumerate() {
        let number = at + 1;
        let wrong = |what: String| format!("line {number}: {what}");
        let line = parse_line(line).map_err(wrong)?;
        let opens = matches!(line, Line::Call(Call::Open { .. }));
        if opens != (number == 1) {
            return Err(wrong("open is the first line and only that".to_string()));
        }
        match (line, &mut waiting) {
            (Line::Call(call), _) => {
                let next = Waiting {
                    line: number,
                    call,
                    answers: VecDeque::new(),
                };
                if let Some(ready) = waiting.replace(next) {
                    each(&replay.run(ready)?);
                }
            }
            (Line::Driver(record), Some(waiting)) if !record.word.is_of_small_buffers() => {
                waiting.answers.push_back(lent_by(record));
            }
            _ => {}
        }
    }
    if let Some(ready) = waiting {
        each(&replay.run(ready)?);
    }
    Ok(())
}

/// A last line without its line feed counts; what follows the last line feed is no line.
fn lines(text: &[u8]) -> impl Iterator<Item = &[u8]> {
    text.split_inclusive(|byte| *byte == b'\n')
        .map(|line| line.strip_suffix(b"\n").unwrap_or(line))
}

impl Replay {
    fn run(&mut self, waiting: Waiting) -> Result<Step, String> {
        let Waiting {
            line,
            call,
            answers,
        } = waiting;
        let wrong = |what: String| format!("line {line}: {what}");
        self.admit(call).map_err(wrong)?;
        let before = self.session.tables();
        let watch = Watch::new(call, self.config, before.as_ref());
        self.lent.replace(Lent::new(line, answers, watch));
        let outcome = (self.session.run(call))
            .map_err(|panic| wrong(format!("the Rust panics here: {panic}")))?;
        self.stopped = outcome.result.answer == 14;
        Ok(Step {
            config: self.config,
            call,
            outcome,
            before,
            after: self.session.tables(),
        })
    }

    /// Says why a call cannot be put to the Rust, or opens the session for the first.
    fn admit(&mut self, call: Call) -> Result<(), String> {
        if let Call::Open {
            page_size,
            va_size,
            initial_pages,
        } = call
        {
            self.config = Config {
                page_size,
                va_size,
                initial_pages,
            };
            if !self.config.is_good() {
                return Err(nothing_like(19));
            }
            self.session = Session::new(page_size, Box::new(self.lent.clone()));
            return Ok(());
        }
        if self.stopped {
            return Err("the pool is stopped since the answer 14, while the Rust goes on".into());
        }
        let tables = self.session.tables();
        if let Some(number) = refusal_at_entry(call, self.config, tables.as_ref()) {
            return Err(nothing_like(number));
        }
        let initial = self.config.initial_pages > 0;
        if initial && matches!(call, Call::Malloc { stream: 0, .. }) {
            return Err("the Rust's initial stream cannot be named from outside".to_string());
        }
        Ok(())
    }
}
