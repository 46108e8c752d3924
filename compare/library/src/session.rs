//! One random session, driven by the Rust and followed by the library call by call.

use compare::{
    card::{Mood, RandomCard},
    generate::generate,
    replay::Step,
    scale::plan::{Planned, PATIENCE},
    session::{Answered, Call, Outcome},
    text::{tables_text, trace_of},
    words::Failure,
};

use caldarimpu::Refusal;
use original::driver::{Record, Word};

use crate::{
    count::Count,
    ours::{record_of, Card, Ours},
    tables::tables_of,
};

/// What was counted, or the first call that differs.
pub fn follow(planned: &Planned) -> Result<Count, String> {
    follow_with(planned, RandomCard::new(planned.seed, planned.words))
}

fn follow_with(planned: &Planned, card: RandomCard) -> Result<Count, String> {
    let mut follower = Follower {
        planned,
        card: Card::new(card),
        ours: Ours::default(),
        count: Count::default(),
    };
    let mut differs = None;
    let mut place = 0;
    let made = generate(
        planned.seed,
        planned.calls,
        PATIENCE,
        planned.words,
        |step| {
            if differs.is_none() {
                differs = follower.step(place, step).err();
            }
            place += 1;
        },
    );
    let said = made.err().or(differs);
    match said {
        None => Ok(follower.count),
        Some(what) => Err(format!("session {}: {what}", planned.name)),
    }
}

struct Follower<'a> {
    planned: &'a Planned,
    card: Card,
    ours: Ours,
    count: Count,
}

impl Follower<'_> {
    fn step(&mut self, place: u64, step: &Step) -> Result<(), String> {
        let wrong = |what: String| format!("call {place}, {:?}: {what}", step.call);
        self.card.card.mood = self.mood(place, step.call);
        let values = self.ours.run(&mut self.card, step.call);
        self.compare(step, values).map_err(wrong)?;
        if step.outcome.result.answer == 14 {
            self.check_stopped().map_err(wrong)?;
        }
        Ok(())
    }

    /// What `generate` has set for the Rust's card at this call.
    fn mood(&self, place: u64, call: Call) -> Mood {
        match call {
            Call::Open { .. } => Mood::Opening,
            Call::Close => Mood::Closing,
            _ if place > self.planned.calls && self.planned.words.fail != Failure::None => {
                Mood::Failing
            }
            _ => Mood::Ordinary,
        }
    }

    fn compare(&mut self, step: &Step, values: Result<(u64, u64), Refusal>) -> Result<(), String> {
        let seen = self.card.take_seen();
        let told = self.card.take_happened().ok_or("the call is not told")?;
        let wanted = &step.outcome;
        same("its trace", &trace_of(step.call, wanted), &told.text)?;
        if seen != wanted.records {
            return Err(format!("the card saw {seen:?}"));
        }
        if told.outcome.records != seen || told.outcome.result != wanted.result {
            return Err(format!("told is {:?}", told.outcome));
        }
        check_values(wanted.result, values)?;
        check_failures(wanted, values.err(), &self.card.take_passed_over())?;
        let tables = self.ours.0.as_ref().map(|pool| tables_of(pool.value()));
        if tables != step.after {
            let (wanted, other) = (step.after.as_ref(), tables.as_ref());
            same("the tables", &tables_text(wanted), &tables_text(other))?;
        }
        self.count.add(step, told.runs);
        Ok(())
    }

    /// No Rust stands behind this: everything but close is refused, without a driver call.
    fn check_stopped(&mut self) -> Result<(), String> {
        for call in [
            Call::Malloc {
                bytes: 1,
                stream: 1,
            },
            Call::Free { address: 1 },
        ] {
            if self.ours.run(&mut self.card, call) != Err(Refusal::PoolStopped) {
                return Err(format!(
                    "the pool is stopped, and {call:?} is not refused so"
                ));
            }
            self.card.take_happened();
        }
        if !self.card.take_seen().is_empty() {
            return Err("a stopped pool makes driver calls".to_string());
        }
        Ok(())
    }
}

/// The values that the package gives are those of the result line.
fn check_values(result: Answered, values: Result<(u64, u64), Refusal>) -> Result<(), String> {
    let agrees = match values {
        Ok(values) => result.answer == 0 && values == (result.first, result.second),
        Err(refusal) => refusal.number() == Some(result.answer),
    };
    if agrees {
        return Ok(());
    }
    Err(format!("{result:?} is given as {values:?}"))
}

/// Of the driver calls that failed one may be what the call answers, and is the refusal's own; all
/// others are passed over.
fn check_failures(
    wanted: &Outcome,
    refusal: Option<Refusal>,
    passed_over: &[Record],
) -> Result<(), String> {
    let answered = match refusal {
        Some(Refusal::DriverFailed { record, .. }) => Some(record_of(&record)),
        Some(Refusal::ReserveFailed { .. }) => wanted.records.last().copied(),
        Some(Refusal::OutOfMemory { .. }) => {
            let creates = |record: &&Record| record.word == Word::Create && record.code == 2;
            wanted.records.iter().find(creates).copied()
        }
        _ => None,
    };
    let failed = (wanted.records.iter().copied()).filter(|record| record.code != 0);
    let (answers, others): (Vec<Record>, Vec<Record>) =
        failed.partition(|record| Some(*record) == answered);
    if answers.len() == usize::from(answered.is_some()) && others == passed_over {
        return Ok(());
    }
    Err(format!("{refusal:?}, and passed over are {passed_over:?}"))
}

fn same(what: &str, wanted: &str, other: &str) -> Result<(), String> {
    if wanted == other {
        return Ok(());
    }
    Err(format!(
        "{what} differs\nthe Rust:\n{wanted}the library:\n{other}"
    ))
}

#[cfg(test)]
mod tests {
    use super::*;

    /// Sessions of each bias.
    fn some() -> impl Iterator<Item = Planned> {
        (0..8).map(Planned::new)
    }

    #[test]
    fn the_library_follows() {
        for planned in some() {
            let count = follow(&planned).unwrap_or_else(|what| panic!("{what}"));
            assert!(count.calls > planned.calls);
        }
    }

    /// A card that answers otherwise is another driver, and is found out.
    #[test]
    fn another_card_differs() {
        for planned in some() {
            let other = RandomCard::new(planned.seed + 1, planned.words);
            let what = follow_with(&planned, other).err().expect("a difference");
            assert!(what.contains("differs"), "{what}");
        }
    }

    /// As is one whose failures come at other times.
    #[test]
    fn other_failures_differ() {
        for planned in some().filter(|planned| planned.calls > 100) {
            let mut words = planned.words;
            (words.oom, words.unmapfail) = (50, 90);
            let other = RandomCard::new(planned.seed, words);
            let what = follow_with(&planned, other).err().expect("a difference");
            assert!(what.contains("differs"), "{what}");
        }
    }
}
