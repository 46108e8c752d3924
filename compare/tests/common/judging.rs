//! What the plain judge says of traces made of a start and some lines.

use super::trace;
use compare::judge::judge;

/// Three lines; page size 4, va_size 40.
pub const OPENED: &str = "open 4 40 0\nreserve 1000 40 0\nresult 1000 4 0\n";

/// Nine lines: handles 71 and 72 at 1000 and 1004, event 5, and no buffer.
pub const MADE: &str =
    "open 4 40 0\nreserve 1000 40 0\ncreate 71 4 0\nmap 1000 71 0\ncreate 72 4 0\n\
                    map 1004 72 0\naccess 1000 8 0\nrecord 5 1 0\nresult 1000 4 0\n";

pub fn said(text: &[u8]) -> String {
    let verdict = judge(text).expect("memory can be read");
    verdict.to_string().replace('\t', " ")
}

pub fn after(start: &str, lines: &str) -> Vec<u8> {
    trace(&format!("{start}{lines}"))
}

#[track_caller]
pub fn accepts(start: &str, lines: &str) {
    assert_eq!(said(&after(start, lines)), "accepted 0 0 0", "{lines}");
}

/// At the last of the lines given.
#[track_caller]
pub fn rejects(start: &str, lines: &str, rule: u64) {
    let text = after(start, lines);
    let line = text.iter().filter(|byte| **byte == b'\n').count();
    assert_eq!(said(&text), format!("rejected {line} {rule} 0"), "{lines}");
}

/// A record in a malloc that is then answered by 14.
#[track_caller]
pub fn accepts_record(start: &str, records: &str) {
    accepts(start, &format!("malloc 4 1 0\n{records}\nresult 1 0 14"));
}

#[track_caller]
pub fn rejects_record(start: &str, records: &str, rule: u64) {
    rejects(start, &format!("malloc 4 1 0\n{records}"), rule);
}

/// Line 11 is the result of the first buffer, at 1000.
pub fn with_live() -> String {
    format!("{MADE}malloc 4 7 0\nresult 1000 4 0\n")
}
