//! Judges traces by docs/RULES.md 8, one line each.

use std::{
    fs::File,
    io::{self, BufRead, BufReader},
};

use compare::{
    judge::judge,
    program::{fail, print},
};

const USAGE: &str = "usage: rust_judge [FILE ..]";

fn main() {
    let files: Vec<String> = std::env::args().skip(1).collect();
    if files.first().is_some_and(|file| file == "--help") {
        return print(&format!("{USAGE}\n"));
    }
    if let Some(option) = files.iter().find(|file| file.starts_with('-')) {
        fail(&format!("no such option: {option}; {USAGE}"));
    }
    if files.is_empty() {
        say("standard input", io::stdin().lock());
    }
    for file in &files {
        let opened = File::open(file).unwrap_or_else(|error| fail(&format!("{file}: {error}")));
        say(file, BufReader::new(opened));
    }
}

fn say(name: &str, input: impl BufRead) {
    match judge(input) {
        Ok(verdict) => print(&format!("{verdict}\n")),
        Err(error) => fail(&format!("{name}: {error}")),
    }
}
