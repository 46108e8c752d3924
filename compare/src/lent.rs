//! Answers lent from a trace, under watch for what the Rust has nothing like.

use std::collections::VecDeque;

use original::driver::{Answer, Answers, Record, Word};

use crate::{bounds::Watch, program::fail};

/// One call's answers, with the call's line for what is to be said of it.
#[derive(Default)]
pub struct Lent {
    line: usize,
    answers: VecDeque<(u64, u64)>,
    watch: Watch,
}

impl Lent {
    pub fn new(line: usize, answers: VecDeque<(u64, u64)>, watch: Watch) -> Self {
        Self {
            line,
            answers,
            watch,
        }
    }

    fn refuse(&self, what: &str) -> ! {
        fail(&format!("line {}: {what}", self.line));
    }
}

impl Answers for Lent {
    fn lend(&mut self, wanted: Record) -> Answer {
        if let Some(number) = self.watch.before(wanted) {
            self.refuse(&nothing_like(number));
        }
        let Some((code, value)) = self.answers.pop_front() else {
            self.refuse("answers ran out, which the Rust has nothing like");
        };
        let Ok(code) = i32::try_from(code) else {
            self.refuse(&format!("code {code} is none that a C function can return"));
        };
        if code == 0 {
            let record = Record {
                first: value,
                ..wanted
            };
            if let Some(number) = self.watch.after(record) {
                self.refuse(&nothing_like(number));
            }
        }
        Answer { code, value }
    }
}

pub fn nothing_like(number: u64) -> String {
    format!("the rules answer {number} here, which the Rust has nothing like")
}

/// What a driver line of a trace lends: its code, and the value that its own word picks.
pub fn lent_by(record: Record) -> (u64, u64) {
    let value = match record.word {
        Word::Reserve | Word::Create => record.first,
        Word::Asked => record.second,
        _ => 0,
    };
    (record.code, value)
}
