//! Gives random sessions to programs, counts what occurred, and shows the smallest that differs.

use std::{fs, path::Path, time::Instant};

use compare::{
    program::{fail, print, report_panics},
    scale::{
        plan::ROUND,
        run,
        shrink::{Found, Shrinker, Wanted},
        subject::{first_difference, Form, Prints, Subject},
        Difference, Report,
    },
};

const USAGE: &str = "\
usage: rust_scale SESSIONS FOLDER rust=REPLAY [rust=REPLAY ..] [trace=PROGRAM ..] [tables=PROGRAM ..]
Makes the first SESSIONS random sessions and gives each to every program; what differs goes to FOLDER.
  rust=REPLAY       a rust_replay, asked with and without --tables; the first shrinks the others'
  trace=PROGRAM     must print the trace
  tables=PROGRAM    must print what rust_replay --tables prints
";

/// The longest trace that is printed; others are only kept.
const MOST_LINES: usize = 200;

fn main() {
    let arguments: Vec<String> = std::env::args().skip(1).collect();
    if arguments.is_empty() || arguments[0] == "--help" {
        return print(&format!(
            "{USAGE}{ROUND} sessions have every bias, ending and turn.\n"
        ));
    }
    let [sessions, folder, programs @ ..] = arguments.as_slice() else {
        fail("SESSIONS and FOLDER are wanted; --help says more");
    };
    let Ok(sessions) = sessions.parse() else {
        fail(&format!("SESSIONS is not a number: {sessions}"));
    };
    let subjects: Vec<Subject> = programs.iter().flat_map(|word| subjects_of(word)).collect();
    if !programs
        .first()
        .is_some_and(|word| word.starts_with("rust="))
    {
        fail("the first program is rust=REPLAY");
    }
    report_panics();
    let begun = Instant::now();
    let report = run(sessions, &subjects).unwrap_or_else(|message| fail(&message));
    show_counts(&report, &subjects, begun);
    show_differences(&report.differences, &subjects, Path::new(folder));
    let (count, differences) = (&report.count, report.differences.len());
    let line = format!(
        "{} random sessions, {} calls, {differences} differences",
        count.sessions, count.calls
    );
    if differences > 0 {
        fail(&format!("compare: {line}"));
    }
    print(&format!("compare: {line}\n"));
}

fn subjects_of(word: &str) -> Vec<Subject> {
    let subject = |program: &str, argument, prints| Subject {
        program: program.to_string(),
        argument,
        prints,
    };
    match word.split_once('=') {
        Some(("rust", program)) => vec![
            subject(program, None, Prints::Trace),
            subject(program, Some("--tables"), Prints::Tables),
        ],
        Some(("trace", program)) => vec![subject(program, None, Prints::Trace)],
        Some(("tables", program)) => vec![subject(program, None, Prints::Tables)],
        _ => fail(&format!("neither rust=, trace= nor tables=: {word}")),
    }
}

fn show_counts(report: &Report, subjects: &[Subject], begun: Instant) {
    print(&report.count.text());
    for subject in subjects {
        print(&format!("asked\t{}\n", subject.name()));
    }
    print(&format!(
        "{} sessions never came to the call that was to fail; {} seconds\n",
        report.unfailed,
        begun.elapsed().as_secs()
    ));
}

/// For each program that differs, the session that shows it after the fewest calls, shrunk.
fn show_differences(differences: &[Difference], subjects: &[Subject], folder: &Path) {
    for (place, subject) in subjects.iter().enumerate() {
        let own = || (differences.iter()).filter(|difference| difference.subject == place);
        let first = own().min_by_key(|difference| difference.found.calls_until_difference());
        let Some(difference) = first else {
            continue;
        };
        let shrunk = shrink(difference, subject, subjects);
        let found = shrunk.as_ref().unwrap_or(&difference.found);
        let file = folder.join(format!("difference-{place}"));
        keep(&file.with_extension("session"), &difference.found.given);
        keep(&file.with_extension("trace"), &found.given);
        keep(&file.with_extension("wanted"), &found.wanted);
        keep(&file.with_extension("said"), &found.said.out);
        print(&format!(
            "\n{} differs in {} sessions; one is rust_generate {}\n{} to {} calls, kept in {}.trace\n",
            subject.name(),
            own().count(),
            difference.session,
            if shrunk.is_some() { "shrunk" } else { "not shrunk: it comes" },
            found.calls.len(),
            file.display(),
        ));
        show(found, subject);
    }
}

/// As a whole trace if the program differs on that too.
fn shrink(difference: &Difference, subject: &Subject, subjects: &[Subject]) -> Option<Found> {
    [Form::Whole, difference.form].into_iter().find_map(|form| {
        let shrinker = Shrinker {
            wanted: Wanted {
                trace: &subjects[0],
                tables: &subjects[1],
            },
            subject,
            form,
        };
        (shrinker.shrink(&difference.found.calls)).unwrap_or_else(|message| fail(&message))
    })
}

fn show(found: &Found, subject: &Subject) {
    let given = &found.given;
    if given.iter().filter(|byte| **byte == b'\n').count() <= MOST_LINES {
        print(&String::from_utf8_lossy(given));
    }
    let said = &found.said;
    if said.out != found.wanted {
        let (number, wanted, other) = first_difference(&found.wanted, &said.out);
        let name = subject.name();
        print(&format!(
            "line {number} of the output differs\nthe Rust\t{wanted}\n{name}\t{other}\n"
        ));
    }
    if !said.good {
        print(&format!("{} fails, or was ended\n", subject.name()));
    }
}

fn keep(file: &Path, text: &[u8]) {
    if let Err(error) = fs::write(file, text) {
        fail(&format!("{}: {error}", file.display()));
    }
}
