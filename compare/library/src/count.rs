//! How often each answer and each driver word occurred, and how often the library was run.

use std::collections::BTreeMap;

use compare::{replay::Step, session::Call, text::word_name};
use original::driver::Word;

#[derive(Default)]
pub struct Count {
    pub calls: u64,
    answers: BTreeMap<u64, u64>,
    words: BTreeMap<Word, u64>,
    /// For each kind of call, how many there were and what they took.
    kinds: BTreeMap<&'static str, Runs>,
}

/// Runs of the library.
#[derive(Default)]
struct Runs {
    calls: u64,
    runs: u64,
    most: u64,
    /// What it would take without guessing ahead: one for each driver call, and a last one.
    plain: u64,
}

impl Count {
    pub fn add(&mut self, step: &Step, runs: u64) {
        let result = step.outcome.result;
        self.calls += 1;
        *self.answers.entry(result.answer).or_default() += 1;
        for record in &step.outcome.records {
            *self.words.entry(record.word).or_default() += 1;
        }
        self.kinds.entry(kind(step)).or_default().join(&Runs {
            calls: 1,
            runs,
            most: runs,
            plain: step.outcome.records.len() as u64 + 1,
        });
    }

    pub fn join(&mut self, other: Self) {
        self.calls += other.calls;
        for (answer, times) in other.answers {
            *self.answers.entry(answer).or_default() += times;
        }
        for (word, times) in other.words {
            *self.words.entry(word).or_default() += times;
        }
        for (kind, runs) in other.kinds {
            self.kinds.entry(kind).or_default().join(&runs);
        }
    }

    pub fn text(&self) -> String {
        let mut text = String::new();
        for (answer, times) in &self.answers {
            text += &format!("answer\t{times}\t{answer}\n");
        }
        for (word, times) in &self.words {
            text += &format!("word\t{times}\t{}\n", word_name(*word));
        }
        let mut all = Runs::default();
        for (kind, runs) in &self.kinds {
            text += &runs.text(kind);
            all.join(runs);
        }
        text + &all.text("all calls")
    }
}

impl Runs {
    fn join(&mut self, other: &Self) {
        self.calls += other.calls;
        self.runs += other.runs;
        self.most = self.most.max(other.most);
        self.plain += other.plain;
    }

    fn text(&self, kind: &str) -> String {
        let average = |sum: u64| sum as f64 / self.calls as f64;
        let (runs, plain) = (average(self.runs), average(self.plain));
        let Self { calls, most, .. } = self;
        format!("runs\t{runs:.2}\tat most {most}, plainly {plain:.1}\t{calls}\t{kind}\n")
    }
}

fn kind(step: &Step) -> &'static str {
    let has = |word| (step.outcome.records.iter()).any(|record| record.word == word);
    match step.call {
        Call::Open { .. } => "open",
        Call::Malloc { .. } if has(Word::Reserve) => "malloc, reserves",
        Call::Malloc { .. } if has(Word::Create) => "malloc, creates",
        Call::Malloc { .. } if has(Word::Map) => "malloc, moves",
        Call::Malloc { .. } if step.outcome.result.answer == 0 => "malloc, fits",
        Call::Malloc { .. } => "malloc, refused",
        Call::Free { .. } => "free",
        Call::Close => "close",
    }
}
