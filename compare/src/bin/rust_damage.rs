//! Writes traces, damaged and whole, made from sessions: one file each.

use std::fs;

use compare::{
    damage::{damaged, lines_of},
    program::{fail, print},
    random::Random,
};

const USAGE: &str = "usage: rust_damage SEED COUNT --into DIR FILE ..";

fn main() {
    let arguments: Vec<String> = std::env::args().skip(1).collect();
    if arguments.first().is_some_and(|first| first == "--help") {
        return print(&format!("{USAGE}\n"));
    }
    let [seed, count, into, folder, files @ ..] = arguments.as_slice() else {
        fail(USAGE);
    };
    if into != "--into" || files.is_empty() {
        fail(USAGE);
    }
    let seed = number("SEED", seed);
    let count = number("COUNT", count);
    let sessions: Vec<_> = (files.iter())
        .map(|file| {
            let text = fs::read_to_string(file);
            lines_of(&text.unwrap_or_else(|error| fail(&format!("{file}: {error}"))))
        })
        .collect();
    let mut random = Random::new(seed);
    for place in 0..count {
        let file = format!("{folder}/{place:06}.trace");
        if let Err(error) = fs::write(&file, damaged(&mut random, &sessions)) {
            fail(&format!("{file}: {error}"));
        }
    }
}

fn number(name: &str, text: &str) -> u64 {
    let Ok(number) = text.parse() else {
        fail(&format!("{name} is not a number: {text}"));
    };
    number
}
