//! What calls cost, ours and the Rust's, in whatever is counted.

use std::collections::BTreeMap;

use crate::{kind::Kind, step::Step};

#[derive(Clone, Copy, Debug)]
pub struct Spent {
    pub ours: u64,
    pub rust: u64,
}

impl Spent {
    pub fn ratio(self) -> f64 {
        self.ours as f64 / self.rust as f64
    }
}

/// The heading of lines that `print_kinds` prints.
pub fn print_heading(unit: &str) {
    let [ours, rust] = ["ours", "Rust"].map(|side| format!("{side} {unit}").trim().to_string());
    println!(
        "{:>7} {ours:>9} {rust:>9} {:>6}  {:<8}  call",
        "ratio", "calls", "session"
    );
}

/// The mean of each kind of call in a session.
pub fn print_kinds(name: &str, steps: &[Step], spent: &[Spent]) {
    let mut kinds: BTreeMap<Kind, Vec<Spent>> = BTreeMap::new();
    for (step, spent) in steps.iter().zip(spent) {
        kinds.entry(step.kind).or_default().push(*spent);
    }
    for (kind, spent) in kinds {
        print_mean(name, kind.name(), &spent);
    }
}

/// The mean of some calls of a session.
pub fn print_mean(session: &str, call: &str, spent: &[Spent]) {
    let calls = spent.len() as u64;
    let mean = Spent {
        ours: spent.iter().map(|spent| spent.ours).sum::<u64>() / calls,
        rust: spent.iter().map(|spent| spent.rust).sum::<u64>() / calls,
    };
    let Spent { ours, rust } = mean;
    let ratio = mean.ratio();
    println!("{ratio:>7.1} {ours:>9} {rust:>9} {calls:>6}  {session:<8}  {call}");
}
