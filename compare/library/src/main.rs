//! The library for Rust in lockstep with the original: the same calls on cards that answer alike.

mod count;
mod managers;
mod ours;
mod session;
mod tables;

use std::{
    sync::{
        atomic::{AtomicU64, Ordering},
        Mutex,
    },
    thread,
};

use compare::{
    program::{fail, print, report_panics},
    scale::plan::Planned,
};

use crate::{count::Count, session::follow};

const USAGE: &str = "usage: lockstep SESSIONS, or lockstep --managers CALLS";

/// Differences after which no further session is begun.
const ENOUGH: usize = 5;

#[derive(Default)]
struct Report {
    count: Count,
    differences: Vec<String>,
}

fn main() {
    let arguments: Vec<String> = std::env::args().skip(1).collect();
    let words: Vec<&str> = arguments.iter().map(String::as_str).collect();
    report_panics();
    match words.as_slice() {
        ["--managers", calls] => managers(number("CALLS", calls)),
        [sessions] => pools(number("SESSIONS", sessions)),
        _ => fail(USAGE),
    }
}

fn number(name: &str, text: &str) -> u64 {
    let Ok(number) = text.parse() else {
        fail(&format!("{name} is not a number: {text}; {USAGE}"));
    };
    number
}

fn pools(sessions: u64) {
    let Report { count, differences } = run(sessions);
    end(
        "lockstep",
        sessions,
        count.calls,
        &count.text(),
        &differences,
    );
}

fn managers(calls: u64) {
    let managers::Report {
        sessions,
        count,
        differences,
    } = managers::run(calls);
    end(
        "managers",
        sessions,
        count.calls,
        &count.text(),
        &differences,
    );
}

fn end(name: &str, sessions: u64, calls: u64, counted: &str, differences: &[String]) {
    print(counted);
    for difference in differences {
        print(&format!("\n{difference}\n"));
    }
    let differences = differences.len();
    let line =
        format!("{name}: {sessions} random sessions, {calls} calls, {differences} differences");
    if differences > 0 {
        fail(&line);
    }
    print(&format!("{line}\n"));
}

/// The sessions of rust_scale, on all cores.
fn run(sessions: u64) -> Report {
    let next = AtomicU64::new(0);
    let report = Mutex::new(Report::default());
    let work = || loop {
        let number = next.fetch_add(1, Ordering::Relaxed);
        if number >= sessions {
            return;
        }
        let followed = follow(&Planned::new(number));
        let mut report = report.lock().expect("no thread fails");
        match followed {
            Ok(count) => report.count.join(count),
            Err(difference) => report.differences.push(difference),
        }
        if report.differences.len() >= ENOUGH {
            next.store(sessions, Ordering::Relaxed);
        }
    };
    let cores = thread::available_parallelism().map_or(1, usize::from);
    thread::scope(|scope| {
        for _ in 0..cores {
            scope.spawn(work);
        }
    });
    report.into_inner().expect("no thread fails")
}
