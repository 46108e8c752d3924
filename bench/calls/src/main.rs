//! What a call costs, the port and the Rust on the same sessions and the same lent answers.
//!
//!     bench_calls times SESSION..           recorded sessions, timed
//!     bench_calls growth                    sessions made up, in which one table grows, timed
//!     bench_calls replay SESSION            one replay, for callgrind
//!     bench_calls counts FOLDER SESSION..   instructions: callgrind's dumps of NAME.trace are
//!                                           FOLDER/NAME.1, FOLDER/NAME.2 and so on

mod count;
mod floor;
mod growth;
mod kind;
mod made;
mod measure;
mod measured;
mod ours;
mod rust;
mod spent;
mod step;

use crate::{
    count::{counted, replay},
    floor::print_floor,
    growth::print_growth,
    measure::{clock, measure},
    spent::{print_heading, print_kinds},
    step::{read, Step},
};

fn main() {
    let arguments: Vec<String> = std::env::args().skip(1).collect();
    let words: Vec<&str> = arguments.iter().map(String::as_str).collect();
    match words[..] {
        ["times", ref sessions @ ..] => print_times(sessions),
        ["growth"] => print_growth(),
        ["replay", session] => replay(&read(session)),
        ["counts", folder, ref sessions @ ..] => print_counts(folder, sessions),
        _ => panic!("one of times, growth, replay and counts, not {words:?}"),
    }
}

fn print_times(paths: &[&str]) {
    println!("{} ns of each time are the clock's own", clock());
    print_heading("ns");
    let sessions: Vec<Vec<Step>> = paths.iter().map(|path| read(path)).collect();
    let spent = measure(&sessions);
    for ((path, steps), spent) in paths.iter().zip(&sessions).zip(&spent) {
        print_kinds(name(path), steps, spent);
    }
    println!();
    println!("what a pool by value costs a call that does nothing, beside the Rust's free:");
    print_heading("ns");
    for ((path, steps), spent) in paths.iter().zip(&sessions).zip(&spent) {
        print_floor(name(path), steps, spent);
    }
}

fn print_counts(folder: &str, sessions: &[&str]) {
    print_heading("");
    for session in sessions {
        let (name, steps) = (name(session), read(session));
        print_kinds(name, &steps, &counted(&steps, &format!("{folder}/{name}")));
    }
}

/// sessions/NAME.trace
fn name(path: &str) -> &str {
    let file = path.rsplit('/').next().unwrap_or(path);
    file.strip_suffix(".trace").unwrap_or(file)
}
