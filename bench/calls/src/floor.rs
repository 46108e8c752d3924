//! The least that a call costs which takes the pool by value and hands it back, beside the Rust's
//! free.

use crate::{
    kind::Kind,
    measure::{often, timed},
    ours::Ours,
    spent::{print_mean, Spent},
    step::Step,
};

/// Before each free of the session, on the pool that it meets.
pub fn print_floor(session: &str, steps: &[Step], spent: &[Spent]) {
    let frees = rust_alone(steps, spent);
    let mut best = CALLS.map(|call| (call, frees.clone()));
    often(|_| replay(steps, &mut best));
    for ((name, _), spent) in &best {
        print_mean(session, name, spent);
    }
}

/// What is called, and how it is listed.
type Call = (&'static str, fn(&mut Ours));

const CALLS: [Call; 3] = [
    ("passed in and out", Ours::pass),
    ("passed in, looked at once, and out", Ours::look),
    ("passed in, tested, and out", Ours::test),
];

/// The frees, with the Rust's times.
fn rust_alone(steps: &[Step], spent: &[Spent]) -> Vec<Spent> {
    let frees = steps.iter().zip(spent);
    frees
        .filter(|(step, _)| step.kind == Kind::Free)
        .map(|(_, spent)| Spent {
            ours: u64::MAX,
            ..*spent
        })
        .collect()
}

fn replay(steps: &[Step], best: &mut [(Call, Vec<Spent>)]) {
    let mut ours = Ours::new();
    let mut free = 0;
    for step in steps {
        if step.kind == Kind::Free {
            for ((_, run), best) in &mut *best {
                let best = &mut best[free];
                best.ours = best.ours.min(timed(|| run(&mut ours)).0);
            }
            free += 1;
        }
        ours.lend(&step.answers);
        ours.run(step.call);
    }
}
