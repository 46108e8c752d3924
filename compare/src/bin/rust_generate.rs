//! Prints a random session that the Rust pool itself drives, or the manager above it.

use compare::{
    generate::generate,
    manager::{self, trace_of_step},
    program::{fail, print, report_panics},
    text::trace_of,
    words::{Words, HELP},
};

/// Calls after the last asked for in which a failure must come up.
const PATIENCE: u64 = 2000;

fn main() {
    let arguments: Vec<String> = std::env::args().skip(1).collect();
    if arguments.is_empty() || arguments[0] == "--help" {
        return print(HELP);
    }
    let [seed, calls, words @ ..] = arguments.as_slice() else {
        fail("SEED and CALLS are wanted; --help says more");
    };
    let seed = number("SEED", seed);
    let calls = number("CALLS", calls);
    let words = Words::read(words).unwrap_or_else(|message| fail(&message));
    report_panics();
    let generated = if words.in_bytes() {
        manager::generate::generate(seed, calls, PATIENCE, words, |step| {
            print(&trace_of_step(step, words.config.page_size));
        })
    } else {
        generate(seed, calls, PATIENCE, words, |step| {
            print(&trace_of(step.call, &step.outcome));
        })
    };
    match generated {
        Ok(true) => {}
        Ok(false) => fail("the call to fail did not come up; try another seed"),
        Err(message) => fail(&message),
    }
}

fn number(name: &str, text: &str) -> u64 {
    let Ok(number) = text.parse() else {
        fail(&format!("{name} is not a number: {text}"));
    };
    number
}
