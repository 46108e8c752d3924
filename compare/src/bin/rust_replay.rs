//! Reads a trace and prints the Rust's own, on the answers that the trace lends.

use compare::{
    program::{fail, print, read_input, report_panics},
    replay::replay,
    text::{tables_text, trace_of},
};

const USAGE: &str = "usage: rust_replay [--tables] [FILE]";

fn main() {
    let mut tables = false;
    let mut file = None;
    for argument in std::env::args().skip(1) {
        match argument.as_str() {
            "--help" => return print(&format!("{USAGE}\n")),
            "--tables" => tables = true,
            other if other.starts_with('-') => fail(&format!("no such option: {other}; {USAGE}")),
            _ if file.is_some() => fail(&format!("one file at most; {USAGE}")),
            _ => file = Some(argument),
        }
    }
    let input = read_input(file.as_deref());
    report_panics();
    let replayed = replay(&input, |step| {
        let mut text = trace_of(step.call, &step.outcome);
        if tables {
            text += &tables_text(step.after.as_ref());
        }
        print(&text);
    });
    if let Err(message) = replayed {
        fail(&message);
    }
}
