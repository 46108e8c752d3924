//! How often each answer, each driver word and each rule occurs in a set of sessions.

use std::collections::BTreeMap;

use original::{driver::Word, tables::Tables};

use crate::{
    replay::{replay, Step},
    rules::{rules_of, Rule},
    text::word_name,
};

#[derive(Clone, Copy, Debug, Default, PartialEq, Eq)]
pub struct Tally {
    pub times: u64,
    pub sessions: u64,
}

/// The most that the tables held after a call, for each of the ceilings.
#[derive(Default)]
pub struct Most {
    pub pages: usize,
    pub spans: usize,
    pub zombies: usize,
    pub holes_and_zombies: usize,
    pub roots: usize,
}

#[derive(Default)]
pub struct Count {
    pub sessions: u64,
    pub calls: u64,
    pub lines: u64,
    pub most: Most,
    pub answers: BTreeMap<u64, Tally>,
    pub words: BTreeMap<Word, Tally>,
    pub rules: BTreeMap<Rule, Tally>,
}

/// One session's part, added at its end: a session counts once however often a thing occurs in it.
#[derive(Default)]
pub struct Part {
    calls: u64,
    lines: u64,
    most: Most,
    answers: BTreeMap<u64, u64>,
    words: BTreeMap<Word, u64>,
    rules: BTreeMap<Rule, u64>,
}

impl Count {
    /// Replays a session and counts it in, or says where it cannot be followed.
    pub fn add(&mut self, text: &[u8]) -> Result<(), String> {
        let mut part = Part::default();
        replay(text, |step| part.add(step))?;
        self.add_part(part);
        Ok(())
    }

    pub fn add_part(&mut self, part: Part) {
        self.sessions += 1;
        self.calls += part.calls;
        self.lines += part.lines;
        self.most.join(&part.most);
        tally(&mut self.answers, part.answers);
        tally(&mut self.words, part.words);
        tally(&mut self.rules, part.rules);
    }

    /// Answers met, and every word and rule, met or not.
    pub fn text(&self) -> String {
        let mut text = format!(
            "{} sessions, {} calls, {} lines\n{}",
            self.sessions,
            self.calls,
            self.lines,
            self.most.text()
        );
        let mut line = |kind: &str, name: &str, tally: Tally| {
            let Tally { times, sessions } = tally;
            text += &format!("{kind}\t{times}\tin {sessions}\t{name}\n");
        };
        for (answer, tally) in &self.answers {
            line("answer", &answer.to_string(), *tally);
        }
        for (word, tally) in &self.words {
            line("word", word_name(*word), *tally);
        }
        for rule in Rule::ALL {
            let tally = self.rules.get(rule).copied().unwrap_or_default();
            line("rule", rule.text(), tally);
        }
        text
    }
}

impl Most {
    fn of(tables: &Tables) -> Self {
        let zombies = tables.zombies.len();
        Self {
            pages: tables.pages.len(),
            spans: tables.free.len() + tables.live.len(),
            zombies,
            holes_and_zombies: tables.holes.len() + zombies,
            roots: tables.roots.len(),
        }
    }

    fn join(&mut self, other: &Self) {
        self.pages = self.pages.max(other.pages);
        self.spans = self.spans.max(other.spans);
        self.zombies = self.zombies.max(other.zombies);
        self.holes_and_zombies = self.holes_and_zombies.max(other.holes_and_zombies);
        self.roots = self.roots.max(other.roots);
    }

    fn text(&self) -> String {
        format!(
            "at most {} pages, {} spans, {} zombies, {} holes and zombies, {} roots\n",
            self.pages, self.spans, self.zombies, self.holes_and_zombies, self.roots
        )
    }
}

impl Part {
    pub fn add(&mut self, step: &Step) {
        self.calls += 1;
        self.lines += 2 + step.outcome.records.len() as u64;
        if let Some(tables) = &step.after {
            self.most.join(&Most::of(tables));
        }
        *self.answers.entry(step.outcome.result.answer).or_default() += 1;
        for record in &step.outcome.records {
            *self.words.entry(record.word).or_default() += 1;
        }
        for rule in rules_of(step) {
            *self.rules.entry(rule).or_default() += 1;
        }
    }
}

fn tally<K: Ord>(tallies: &mut BTreeMap<K, Tally>, times: BTreeMap<K, u64>) {
    for (key, times) in times {
        let tally = tallies.entry(key).or_default();
        tally.times += times;
        tally.sessions += 1;
    }
}
