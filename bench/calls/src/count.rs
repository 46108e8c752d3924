//! Instructions of each call, counted by callgrind.
//!
//! It zeroes its count where one function is entered and dumps it where another is: entries are
//! seen on every processor, ends of functions are not.

use std::{fs, hint::black_box};

use crate::{
    ours::Ours,
    rust::Rust,
    spent::Spent,
    step::{page_size, Step},
};

#[inline(never)]
#[no_mangle]
extern "C" fn bench_count_from_here() {
    black_box("from here");
}

#[inline(never)]
#[no_mangle]
extern "C" fn bench_count_to_here() {
    black_box("to here");
}

/// One replay, to be run under callgrind: a dump for each call of the Rust, then of ours.
pub fn replay(steps: &[Step]) {
    let mut ours = Ours::new();
    let mut rust = Rust::new(page_size(steps));
    for step in steps {
        rust.lend(&step.answers);
        bench_count_from_here();
        black_box(rust.run(step.call));
        bench_count_to_here();
        rust.records();
        ours.lend(&step.answers);
        bench_count_from_here();
        black_box(ours.run(step.call));
        bench_count_to_here();
    }
}

/// What the dumps of a replay say: they are PREFIX.1, PREFIX.2 and so on.
pub fn counted(steps: &[Step], prefix: &str) -> Vec<Spent> {
    let count = |number: usize| total(&format!("{prefix}.{number}"));
    let calls = 0..steps.len();
    calls
        .map(|at| Spent {
            rust: count(2 * at + 1),
            ours: count(2 * at + 2),
        })
        .collect()
}

fn total(path: &str) -> u64 {
    let dump = fs::read_to_string(path).unwrap_or_else(|error| panic!("{path}: {error}"));
    let mut totals = dump
        .lines()
        .filter_map(|line| line.strip_prefix("totals: "));
    let total = totals.next().and_then(|total| total.trim().parse().ok());
    total.unwrap_or_else(|| panic!("{path} has no total"))
}
