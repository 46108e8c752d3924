//! Replays sessions on the Rust and counts the answers, driver words and rules in them.

use compare::{
    count::Count,
    program::{fail, print, read_input, report_panics},
};

const USAGE: &str = "usage: rust_count [FILE ..]";

fn main() {
    let files: Vec<String> = std::env::args().skip(1).collect();
    if files.first().is_some_and(|file| file == "--help") {
        return print(&format!("{USAGE}\n"));
    }
    if let Some(option) = files.iter().find(|file| file.starts_with('-')) {
        fail(&format!("no such option: {option}; {USAGE}"));
    }
    report_panics();
    let mut count = Count::default();
    if files.is_empty() {
        add(&mut count, "standard input", None);
    }
    for file in &files {
        add(&mut count, file, Some(file));
    }
    print(&count.text());
}

fn add(count: &mut Count, name: &str, file: Option<&str>) {
    let text = read_input(file);
    if let Err(message) = count.add(&text) {
        fail(&format!("{name}: {message}"));
    }
}
