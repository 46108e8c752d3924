//! How often each kind of request, each answer and each driver word occurred.

use std::collections::BTreeMap;

use compare::{
    manager::{Request, Step},
    session::Call,
    text::word_name,
};
use original::driver::Word;

#[derive(Default)]
pub struct Count {
    pub calls: u64,
    /// Runs of the library.
    pub runs: u64,
    /// Small buffers held at once.
    most_small: usize,
    answers: BTreeMap<u64, u64>,
    words: BTreeMap<Word, u64>,
    kinds: BTreeMap<&'static str, u64>,
}

impl Count {
    pub fn add(&mut self, step: &Step) {
        let answer = step.outcome.result.answer;
        if let Request::Call(_) = step.request {
            self.calls += 1;
            *self.answers.entry(answer).or_default() += 1;
        }
        let small = step.after.as_ref().map_or(0, |state| state.small.len());
        self.most_small = self.most_small.max(small);
        for record in &step.outcome.records {
            *self.words.entry(record.word).or_default() += 1;
        }
        *self.kinds.entry(kind(step)).or_default() += 1;
        if let (Request::Call(Call::Close), true) = (step.request, has(step, Word::DropSmall)) {
            *self.kinds.entry("close, small buffers held").or_default() += 1;
        }
    }

    pub fn join(&mut self, other: Self) {
        self.calls += other.calls;
        self.runs += other.runs;
        self.most_small = self.most_small.max(other.most_small);
        for (answer, times) in other.answers {
            *self.answers.entry(answer).or_default() += times;
        }
        for (word, times) in other.words {
            *self.words.entry(word).or_default() += times;
        }
        for (kind, times) in other.kinds {
            *self.kinds.entry(kind).or_default() += times;
        }
    }

    pub fn text(&self) -> String {
        let mut text = String::new();
        for (answer, times) in &self.answers {
            text += &format!("answer\t{times}\t{answer}\n");
        }
        for (word, times) in &self.words {
            text += &format!("word\t{times}\t{}\n", word_name(*word));
        }
        for (kind, times) in &self.kinds {
            text += &format!("request\t{times}\t{kind}\n");
        }
        text += &format!("most\t{}\tsmall buffers\n", self.most_small);
        text + &format!("runs\t{}\tof the library\n", self.runs)
    }

    /// A driver failure that stops the pool, which one of small buffers does not.
    pub fn stops(step: &Step) -> bool {
        let small = has(step, Word::Small) || has(step, Word::DropSmall);
        step.outcome.result.answer == 14 && !small
    }
}

fn has(step: &Step, word: Word) -> bool {
    (step.outcome.records.iter()).any(|record| record.word == word)
}

fn kind(step: &Step) -> &'static str {
    let served = step.outcome.result.answer == 0;
    match step.request {
        Request::ResetHighest => "reset",
        Request::FreeAgain(_) if served => "free again, served; no Rust behind it",
        Request::FreeAgain(_) => "free again, failed; no Rust behind it",
        Request::Call(Call::Open { .. }) => "open",
        Request::Call(Call::Close) => "close",
        Request::Call(Call::Malloc { .. }) if has(step, Word::Small) => match served {
            true => "malloc, small",
            false => "malloc, small, failed",
        },
        Request::Call(Call::Malloc { bytes, .. }) if served => {
            match bytes == step.outcome.result.second {
                true => "malloc, whole",
                false => "malloc, rounded",
            }
        }
        Request::Call(Call::Malloc { .. }) => "malloc, refused",
        Request::Call(Call::Free { .. }) if has(step, Word::DropSmall) => match served {
            true => "free, small",
            false => "free, small, failed: the Rust lets go, the layer keeps",
        },
        Request::Call(Call::Free { .. }) if served => "free, whole",
        Request::Call(Call::Free { .. }) => "free, refused",
    }
}
