//! One random session, driven by the Rust's manager and followed by the layer call by call.

use compare::{
    card::{Mood, RandomCard},
    manager::{generate::generate, trace_of_step, Request, State, Step},
    scale::plan::{Planned, PATIENCE},
    session::Call,
    text::tables_text,
    words::Failure,
};

use original::driver::{Record, Word};

use super::{count::Count, layer::Layer};
use crate::ours::Card;

/// What was counted, or the first request that differs.
pub fn follow<Tested: Layer>(planned: &Planned) -> Result<Count, String> {
    let mut follower = Follower {
        planned,
        card: Card::new(RandomCard::new(planned.seed, planned.words)),
        ours: Tested::default(),
        count: Count::default(),
        calls: 0,
    };
    let mut differs = None;
    let made = generate(
        planned.seed,
        planned.calls,
        PATIENCE,
        planned.words,
        |step| {
            if differs.is_none() {
                differs = follower.step(step).err();
            }
        },
    );
    match made.err().or(differs) {
        None => Ok(follower.count),
        Some(what) => Err(format!("session {}: {what}", planned.name)),
    }
}

struct Follower<'a, Tested> {
    planned: &'a Planned,
    card: Card,
    ours: Tested,
    count: Count,
    /// The opening is the 0th.
    calls: u64,
}

impl<Tested: Layer> Follower<'_, Tested> {
    fn step(&mut self, step: &Step) -> Result<(), String> {
        let place = self.calls;
        let wrong = |what: String| format!("call {place}, {:?}: {what}", step.request);
        match step.request {
            Request::Call(call) => {
                self.card.card.mood = self.mood(call);
                self.calls += 1;
                self.call(step, call).map_err(wrong)?;
            }
            Request::FreeAgain(address) => {
                self.call(step, Call::Free { address }).map_err(wrong)?;
            }
            Request::ResetHighest => self.ours.reset_highest(),
        }
        same_state(step.after.as_ref(), self.ours.state().as_ref()).map_err(wrong)?;
        if Count::stops(step) {
            self.check_stopped(step).map_err(wrong)?;
        }
        self.count.add(step);
        Ok(())
    }

    /// What `generate` has set for the Rust's card at this call.
    fn mood(&self, call: Call) -> Mood {
        match call {
            Call::Open { .. } => Mood::Opening,
            Call::Close => Mood::Closing,
            _ if self.calls > self.planned.calls && self.planned.words.fail != Failure::None => {
                Mood::Failing
            }
            _ => Mood::Ordinary,
        }
    }

    fn call(&mut self, step: &Step, call: Call) -> Result<(), String> {
        let ran = self.ours.run(&mut self.card, call)?;
        let seen = self.card.take_seen();
        let streams = self.card.take_small_streams();
        let wanted = &step.outcome;
        if seen != wanted.records {
            let first = (seen.iter().zip(&wanted.records)).position(|(ours, rust)| ours != rust);
            let place = first.unwrap_or(seen.len().min(wanted.records.len()));
            let (rust, ours) = (wanted.records.get(place), seen.get(place));
            return Err(format!(
                "driver call {place}: the Rust makes {rust:?}, the layer {ours:?}"
            ));
        }
        if streams != step.small_streams {
            let rust = &step.small_streams;
            return Err(format!(
                "the Rust's streams are {rust:?}, the layer's {streams:?}"
            ));
        }
        if ran.result != wanted.result {
            let (rust, ours) = (wanted.result, ran.result);
            return Err(format!("the Rust answers {rust:?}, the layer {ours:?}"));
        }
        if let Some(trace) = ran.trace {
            same_trace(&trace_of_step(step, self.page_size()), &trace)?;
            check_passed_over(step, call, &self.card.take_passed_over())?;
        }
        self.count.runs += ran.runs;
        Ok(())
    }

    fn page_size(&self) -> u64 {
        self.planned.words.config.page_size
    }

    /// No Rust stands behind this: everything but close is refused, without a driver call.
    fn check_stopped(&mut self, step: &Step) -> Result<(), String> {
        let state = step.after.as_ref().ok_or("the pool is there")?;
        let mut calls = vec![Call::Free { address: 1 }];
        for bytes in [0, 1, self.page_size(), u64::MAX] {
            calls.push(Call::Malloc { bytes, stream: 1 });
        }
        for small in &state.small {
            calls.push(Call::Free {
                address: small.pointer,
            });
        }
        for call in calls {
            let answered = self.ours.run(&mut self.card, call)?.result;
            if (answered.answer, answered.first, answered.second) != (2, 0, 0) {
                return Err(format!(
                    "the pool is stopped, and {call:?} gives {answered:?}"
                ));
            }
        }
        if !self.card.take_seen().is_empty() {
            return Err("a stopped layer makes driver calls".to_string());
        }
        same_state(Some(state), self.ours.state().as_ref())
    }
}

fn same_trace(rust: &str, ours: &str) -> Result<(), String> {
    if rust == ours {
        return Ok(());
    }
    Err(format!(
        "its trace differs\nthe Rust:\n{rust}the layer:\n{ours}"
    ))
}

/// Those are failures that end no call: unmaps, releases and askings, and in a close all.
fn check_passed_over(step: &Step, call: Call, passed_over: &[Record]) -> Result<(), String> {
    let ends_no_call = |word| matches!(word, Word::Unmap | Word::Release | Word::Asked);
    let failed = (step.outcome.records.iter().copied()).filter(|record| record.code != 0);
    let wanted: Vec<Record> = failed
        .filter(|record| call == Call::Close || ends_no_call(record.word))
        .collect();
    if wanted == passed_over {
        return Ok(());
    }
    Err(format!(
        "{wanted:?} failed, and passed over are {passed_over:?}"
    ))
}

fn same_state(rust: Option<&State>, ours: Option<&State>) -> Result<(), String> {
    if rust == ours {
        return Ok(());
    }
    let (rust, ours) = (text(rust), text(ours));
    Err(format!(
        "what is held differs\nthe Rust:\n{rust}the layer:\n{ours}"
    ))
}

fn text(state: Option<&State>) -> String {
    let mut text = tables_text(state.map(|state| &state.tables));
    if let Some(state) = state {
        for small in &state.small {
            text += &format!(
                "t-small\t{}\t{}\t{}\n",
                small.pointer, small.size, small.stream
            );
        }
        text += &format!("t-bytes\t{}\t{}\n", state.current, state.highest);
    }
    text
}
