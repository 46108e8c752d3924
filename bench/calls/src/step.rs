//! A session as its calls, each with the answers that are lent to it.

use compare::{
    lent::lent_by,
    session::Call,
    text::{fields, parse_line, Line},
};
use original::driver::Word;

use crate::kind::Kind;

pub struct Step {
    pub call: Call,
    pub answers: Vec<u64>,
    pub kind: Kind,
    /// What it is listed under, if it is.
    pub listed: Option<&'static str>,
}

impl Step {
    pub fn driver_calls(&self) -> usize {
        self.answers.len() / 2
    }
}

pub fn page_size(steps: &[Step]) -> u64 {
    let Call::Open { page_size, .. } = steps[0].call else {
        panic!("open comes first");
    };
    page_size
}

pub fn read(path: &str) -> Vec<Step> {
    let text = std::fs::read(path).unwrap_or_else(|error| panic!("{path}: {error}"));
    recorded(&text)
}

/// A recorded session's calls; those answered 6 are left out, as the Rust has nothing like it.
fn recorded(text: &[u8]) -> Vec<Step> {
    let mut steps: Vec<Step> = Vec::new();
    let mut pending: Option<(Call, Vec<u64>, Vec<Word>)> = None;
    for line in text
        .split(|byte| *byte == b'\n')
        .filter(|line| !line.is_empty())
    {
        match parse_line(line).expect("a recorded session is well formed") {
            Line::Call(call) => pending = Some((call, Vec::new(), Vec::new())),
            Line::Driver(record) => {
                let (_, answers, words) = pending.as_mut().expect("a call comes first");
                let (code, value) = lent_by(record);
                answers.extend([code, value]);
                words.push(record.word);
            }
            Line::Result => {
                let (call, answers, words) = pending.take().expect("a call comes first");
                let (_, [_, _, answer]) = fields(line).expect("the line was read before");
                let kind = Kind::of(call, answer, &words);
                if answer != 6 {
                    let listed = Some(kind.name());
                    steps.push(Step {
                        call,
                        answers,
                        kind,
                        listed,
                    });
                }
            }
        }
    }
    steps
}
