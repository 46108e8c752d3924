//! Times: each call's is the best of many replays of its session, in nanoseconds.

use std::time::{Duration, Instant};

use compare::session::Answered;

use crate::{
    kind::Kind,
    ours::Ours,
    rust::Rust,
    spent::Spent,
    step::{page_size, Step},
};

/// Times over all sessions, so that what else the machine does for some seconds meets each of them
/// only in part.
const ROUNDS: u64 = 5;

/// The best times of each call of each session, ours and the Rust's on the same answers.
pub fn measure(sessions: &[Vec<Step>]) -> Vec<Vec<Spent>> {
    let unknown = Spent {
        ours: u64::MAX,
        rust: u64::MAX,
    };
    let mut best: Vec<Vec<Spent>> = sessions
        .iter()
        .map(|steps| vec![unknown; steps.len()])
        .collect();
    for round in 0..ROUNDS {
        for (steps, best) in sessions.iter().zip(&mut best) {
            replay_often(steps, best, round == 0);
        }
    }
    best
}

/// A round's part of the replays.
fn replay_often(steps: &[Step], best: &mut [Spent], check: bool) {
    often(|at| replay(steps, best, check && at == 0));
}

/// A short session's replays would be over in no time, so they go on for a while.
pub fn often(mut replay: impl FnMut(u64)) {
    let (replays, least) = effort();
    let (start, mut at) = (Instant::now(), 0);
    while at < replays.div_ceil(ROUNDS) || start.elapsed() < least {
        replay(at);
        at += 1;
    }
}

fn effort() -> (u64, Duration) {
    match std::env::var("REPLAYS") {
        Ok(text) => (text.parse().expect("REPLAYS is a number"), Duration::ZERO),
        Err(_) => (300, Duration::from_millis(100)),
    }
}

/// What the clock adds to every time.
pub fn clock() -> u64 {
    let look = |_| timed(|| ()).0;
    (0..100_000).map(look).min().unwrap_or_default()
}

pub fn timed<T>(run: impl FnOnce() -> T) -> (u64, T) {
    let start = Instant::now();
    let result = run();
    (start.elapsed().as_nanos() as u64, result)
}

/// First the whole session by the Rust, then by ours: in turn, each would leave the other a cache full
/// of its own.
fn replay(steps: &[Step], best: &mut [Spent], check: bool) {
    let mut rust = Rust::new(page_size(steps));
    let mut done: Vec<Done> = Vec::new();
    for (step, best) in steps.iter().zip(&mut *best) {
        rust.lend(&step.answers);
        let (spent, answered) = timed(|| rust.run(step.call));
        best.rust = best.rust.min(spent);
        let records = rust.records();
        if check {
            done.push((answered, records));
        }
    }
    let mut ours = Ours::new();
    for (at, (step, best)) in steps.iter().zip(best).enumerate() {
        ours.lend(&step.answers);
        let (spent, answered) = timed(|| ours.run(step.call));
        best.ours = best.ours.min(spent);
        if check {
            check_same(step, (answered, ours.records()), done[at].clone());
        }
    }
}

/// A call's result and records.
type Done = (Answered, Vec<[u64; 4]>);

/// What is timed must be the same work.
fn check_same(step: &Step, ours: Done, rust: Done) {
    let order = |mut records: Vec<[u64; 4]>| {
        // The Rust closes its pages in no order of its own.
        if step.kind == Kind::Close {
            records.sort();
        }
        records
    };
    assert_eq!(ours.0, rust.0, "{:?}", step.call);
    assert_eq!(order(ours.1), order(rust.1), "{:?}", step.call);
}
