//! A program that is given traces, and where it differs from what is wanted.

use std::{
    io::{self, Read, Write},
    process::{Command, Stdio},
    thread,
};

use original::driver::Word;

use crate::{
    lent::lent_by,
    text::{line, parse_line, word_name, Line},
};

#[derive(Clone, Copy, Debug, PartialEq, Eq)]
pub enum Prints {
    Trace,
    /// The trace with the tables after each result, as `rust_replay --tables` prints them.
    Tables,
}

pub struct Subject {
    pub program: String,
    pub argument: Option<&'static str>,
    pub prints: Prints,
}

/// How a trace is given.
#[derive(Clone, Copy, Debug, PartialEq, Eq)]
pub enum Form {
    /// As the Rust prints it.
    Whole,
    /// Only the calls and what is lent, so that nothing can be copied: no results, and 0 for every
    /// number that a program finds by itself.
    Bare,
}

#[derive(Clone, Debug, PartialEq, Eq)]
pub struct Said {
    pub out: Vec<u8>,
    /// The program ended well.
    pub good: bool,
}

/// Bytes read past what is wanted, so that a first line in excess can be shown.
const EXCESS: u64 = 1024;

impl Subject {
    pub fn name(&self) -> String {
        match self.argument {
            Some(argument) => format!("{} {argument}", self.program),
            None => self.program.clone(),
        }
    }

    /// What the program prints on a trace. It is ended where it prints more than `most` bytes.
    pub fn ask(&self, given: &[u8], most: u64) -> Result<Said, String> {
        self.run(given, most)
            .map_err(|error| format!("{}: {error}", self.program))
    }

    /// What it prints where that is not `wanted`, or where it fails.
    pub fn differs(&self, given: &[u8], wanted: &[u8]) -> Result<Option<Said>, String> {
        let said = self.ask(given, wanted.len() as u64 + EXCESS)?;
        Ok((!said.good || said.out != wanted).then_some(said))
    }

    fn run(&self, given: &[u8], most: u64) -> io::Result<Said> {
        let mut child = Command::new(&self.program)
            .args(self.argument)
            .stdin(Stdio::piped())
            .stdout(Stdio::piped())
            .stderr(Stdio::null())
            .spawn()?;
        let mut stdin = child.stdin.take().expect("its input is ours");
        let stdout = child.stdout.take().expect("its output is ours");
        let mut out = Vec::new();
        thread::scope(|scope| {
            // A program that ends early closes its input, which is no fault here.
            scope.spawn(move || drop(stdin.write_all(given)));
            let read = stdout.take(most).read_to_end(&mut out);
            if read.is_err() || out.len() as u64 == most {
                child.kill()?;
            }
            read
        })?;
        let good = child.wait()?.success();
        Ok(Said { out, good })
    }
}

impl Form {
    pub fn of(self, trace: &[u8]) -> Vec<u8> {
        match self {
            Form::Whole => trace.to_vec(),
            Form::Bare => lines(trace).flat_map(bare).collect(),
        }
    }
}

fn bare(text: &[u8]) -> Vec<u8> {
    let record = match parsed(text) {
        Ok(Line::Driver(record)) => record,
        Ok(Line::Result) => return Vec::new(),
        _ => return text.to_vec(),
    };
    let name = word_name(record.word);
    let (code, value) = lent_by(record);
    let bare = match record.word {
        Word::Asked => line(name, 0, value, code),
        _ => line(name, value, 0, code),
    };
    bare.into_bytes()
}

/// A trace's calls, each with its records and its result.
pub fn calls_of(trace: &[u8]) -> Vec<Vec<u8>> {
    let mut calls: Vec<Vec<u8>> = Vec::new();
    for line in lines(trace) {
        match calls.last_mut() {
            Some(call) if !is_call(line) => call.extend(line),
            _ => calls.push(line.to_vec()),
        }
    }
    calls
}

/// Calls of what is wanted, up to and with the one where the other text first differs.
pub fn calls_until_difference(wanted: &[u8], other: &[u8]) -> usize {
    let same = same_bytes(wanted, other);
    let mut start = 0;
    let mut calls = 0;
    for line in lines(wanted) {
        if start > same {
            break;
        }
        start += line.len();
        calls += is_call(line) as usize;
    }
    calls
}

/// The first line that differs: its number, and what each text has there.
pub fn first_difference(wanted: &[u8], other: &[u8]) -> (usize, String, String) {
    let before = &wanted[..same_bytes(wanted, other)];
    let start = before.iter().rposition(|byte| *byte == b'\n');
    let start = start.map_or(0, |place| place + 1);
    let number = 1 + before.iter().filter(|byte| **byte == b'\n').count();
    (number, line_at(wanted, start), line_at(other, start))
}

/// Lines with their line feeds.
fn lines(text: &[u8]) -> impl Iterator<Item = &[u8]> {
    text.split_inclusive(|byte| *byte == b'\n')
}

fn parsed(line: &[u8]) -> Result<Line, String> {
    parse_line(line.strip_suffix(b"\n").unwrap_or(line))
}

fn is_call(line: &[u8]) -> bool {
    matches!(parsed(line), Ok(Line::Call(_)))
}

fn same_bytes(one: &[u8], other: &[u8]) -> usize {
    one.iter().zip(other).take_while(|(a, b)| a == b).count()
}

fn line_at(text: &[u8], start: usize) -> String {
    match lines(&text[start..]).next() {
        None => "(its end)".to_string(),
        Some(line) => match line.strip_suffix(b"\n") {
            Some(line) => String::from_utf8_lossy(line).into_owned(),
            None => format!("{} (no line feed)", String::from_utf8_lossy(line)),
        },
    }
}

#[cfg(test)]
mod tests {
    use super::*;

    const TRACE: &[u8] = b"open\t4\t40\t0\nresult\t0\t4\t0\nfree\t0\t0\t0\nresult\t0\t0\t16\n";

    #[test]
    fn calls_are_parted() {
        let calls = calls_of(TRACE);
        assert_eq!(calls.len(), 2);
        assert_eq!(calls.concat(), TRACE);
    }

    #[test]
    fn a_bare_trace_has_what_is_lent() {
        let whole =
            b"open\t4\t40\t0\nreserve\t8\t40\t0\nasked\t3\t1\t0\nmap\t8\t7\t2\nresult\t8\t4\t0\n";
        let bare = b"open\t4\t40\t0\nreserve\t8\t0\t0\nasked\t0\t1\t0\nmap\t0\t0\t2\n";
        assert_eq!(Form::Bare.of(whole), bare);
        assert_eq!(Form::Whole.of(whole), whole);
    }

    #[test]
    fn calls_are_kept_up_to_the_difference() {
        let differing = |place: usize| {
            let mut other = TRACE.to_vec();
            other[place] = b'x';
            calls_until_difference(TRACE, &other)
        };
        assert_eq!([differing(0), differing(13), differing(26)], [1, 1, 2]);
        assert_eq!(calls_until_difference(TRACE, TRACE), 2);
        assert_eq!(calls_until_difference(TRACE, b""), 1);
    }

    #[test]
    fn the_first_line_that_differs_is_shown() {
        let shown =
            |wanted: &str, other: &str| first_difference(wanted.as_bytes(), other.as_bytes());
        let texts = |number, one: &str, other: &str| (number, one.to_string(), other.to_string());
        assert_eq!(shown("a\nbc\nd\n", "a\nbd\nd\n"), texts(2, "bc", "bd"));
        assert_eq!(shown("a\nb\n", "a\n"), texts(2, "b", "(its end)"));
        assert_eq!(shown("a\n", "a\nb\n"), texts(2, "(its end)", "b"));
        assert_eq!(shown("a\n", "a"), texts(1, "a", "a (no line feed)"));
        assert_eq!(shown("a\n", ""), texts(1, "a", "(its end)"));
    }
}
