//! Random sessions at scale: made here, given to programs, and compared byte for byte.

pub mod plan;
pub mod shrink;
pub mod subject;

use std::{
    sync::{
        atomic::{AtomicU64, Ordering},
        Mutex,
    },
    thread,
};

use crate::{
    count::{Count, Part},
    generate::generate,
    text::{tables_text, trace_of},
};
use plan::{Planned, PATIENCE};
use shrink::Found;
use subject::{calls_of, Form, Prints, Subject};

/// A program's difference from the Rust in one session.
pub struct Difference {
    /// Its place among the programs.
    pub subject: usize,
    pub session: String,
    pub form: Form,
    pub found: Found,
}

#[derive(Default)]
pub struct Report {
    pub count: Count,
    /// Sessions that never came to the call that was to fail; they stand all the same.
    pub unfailed: u64,
    pub differences: Vec<Difference>,
}

/// Differences after which no further session is begun.
const ENOUGH: usize = 20;

struct Made {
    trace: String,
    tables: String,
    part: Part,
    came_up: bool,
}

/// Gives the first `sessions` sessions to each program, on all cores.
pub fn run(sessions: u64, subjects: &[Subject]) -> Result<Report, String> {
    let next = AtomicU64::new(0);
    let report = Mutex::new(Report::default());
    let stop = || next.store(sessions, Ordering::Relaxed);
    let one = |number| -> Result<(), String> {
        let planned = Planned::new(number);
        let name = &planned.name;
        let made = make(&planned).map_err(|what| format!("session {name}: {what}"))?;
        let differences = compare(&made, &planned, subjects)?;
        let mut report = report.lock().expect("no thread fails");
        report.count.add_part(made.part);
        report.unfailed += !made.came_up as u64;
        report.differences.extend(differences);
        if report.differences.len() >= ENOUGH {
            stop();
        }
        Ok(())
    };
    let work = || {
        let numbers = std::iter::repeat_with(|| next.fetch_add(1, Ordering::Relaxed));
        let mut numbers = numbers.take_while(|number| *number < sessions);
        numbers.try_for_each(one).inspect_err(|_| stop())
    };
    let cores = thread::available_parallelism().map_or(1, usize::from);
    thread::scope(|scope| {
        let workers: Vec<_> = (0..cores).map(|_| scope.spawn(work)).collect();
        let ended = (workers.into_iter()).map(|worker| worker.join().expect("no thread fails"));
        ended.collect::<Result<(), _>>()
    })?;
    Ok(report.into_inner().expect("no thread fails"))
}

fn make(planned: &Planned) -> Result<Made, String> {
    let mut trace = String::new();
    let mut tables = String::new();
    let mut part = Part::default();
    let came_up = generate(
        planned.seed,
        planned.calls,
        PATIENCE,
        planned.words,
        |step| {
            let text = trace_of(step.call, &step.outcome);
            trace += &text;
            tables += &text;
            tables += &tables_text(step.after.as_ref());
            part.add(step);
        },
    )?;
    Ok(Made {
        trace,
        tables,
        part,
        came_up,
    })
}

fn compare(
    made: &Made,
    planned: &Planned,
    subjects: &[Subject],
) -> Result<Vec<Difference>, String> {
    let given = planned.form.of(made.trace.as_bytes());
    let mut differences = Vec::new();
    for (place, subject) in subjects.iter().enumerate() {
        let wanted = match subject.prints {
            Prints::Trace => &made.trace,
            Prints::Tables => &made.tables,
        };
        let said = subject.differs(&given, wanted.as_bytes())?;
        differences.extend(said.map(|said| Difference {
            subject: place,
            session: planned.name.clone(),
            form: planned.form,
            found: Found {
                calls: calls_of(made.trace.as_bytes()),
                given: given.clone(),
                wanted: wanted.clone().into_bytes(),
                said,
            },
        }));
    }
    Ok(differences)
}
