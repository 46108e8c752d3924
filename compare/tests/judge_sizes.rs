//! The judge: the four sizes, at their limits.

mod common;

use common::judging::*;

/// Lines of one shape, for each number below `end`.
fn many(end: u64, line: impl Fn(u64) -> String) -> String {
    (0..end).map(line).collect()
}

/// At the limit the trace is accepted with `end` after it; `last` is one beyond.
#[track_caller]
fn is_the_limit(start: &str, end: &str, last: &str, which: u64) {
    accepts(start, end);
    let text = after(start, last);
    let line = text.iter().filter(|byte| **byte == b'\n').count();
    let large = format!("large {line} {which} 0");
    assert_eq!(said(&text), large);
    // What follows does not change it.
    assert_eq!(said(&[&text[..], b"\n"].concat()), large);
}

const FAILED: &str = "result 0 0 14\n";

#[test]
fn size_1_reservations() {
    let base = |n: u64| 1000 + 40 * n;
    let reserved = format!(
        "open 4 40 0\n{}",
        many(16, |n| format!("reserve {} 40 0\n", base(n)))
    );
    is_the_limit(&reserved, FAILED, "reserve 40 40 0\n", 1);
    rejects(&reserved, "reserve 1000 40 0", 1);
    // Those held then, not all there were.
    let again = format!("{reserved}giveback 1000 40 0\nreserve 1000 40 0\nreserve 9999 40 3\n");
    is_the_limit(&again, FAILED, "reserve 960 40 0\n", 1);
}

#[test]
fn size_2_handles() {
    let created = format!(
        "open 4 40 0\n{}",
        many(256, |n| format!("create {n} 4 0\n"))
    );
    is_the_limit(&created, FAILED, "create 256 4 0\n", 2);
    rejects(&created, "create 255 4 0", 2);
    let again = format!("{created}release 9 0 0\ncreate 999 4 0\ncreate 9 4 2\n");
    is_the_limit(&again, FAILED, "create 9 4 0\n", 2);
}

#[test]
fn size_3_live_buffers() {
    let pages = many(130, |n| {
        format!("create {n} 4 0\nmap {} {n} 0\n", 1000 + 4 * n)
    });
    let made = format!("open 4 520 0\nreserve 1000 520 0\n{pages}result 1000 4 0\n");
    let malloc = |n: u64| format!("malloc 4 1 0\nresult {} 4 0\n", 1000 + 4 * n);
    let full = format!("{made}{}", many(128, malloc));
    is_the_limit(&full, "", &malloc(128), 3);
    rejects(&full, "malloc 4 1 0\nresult 1000 4 0", 7);
    let again = format!("{full}free 1000 0 0\nresult 4 1 0\n{}", malloc(129));
    is_the_limit(&again, "", &malloc(0), 3);
    accepts(
        &format!("{full}close 0 0 0\nsync 0 0 0\nresult 0 0 2\n"),
        &malloc(0),
    );
}

#[test]
fn size_4_mapped_pages() {
    let map = |n: u64| format!("map {} 7 0\n", 1000 + 4 * n);
    let full = format!(
        "open 4 20000 0\nreserve 1000 20000 0\ncreate 7 4 0\n{}",
        many(4096, map)
    );
    is_the_limit(&full, FAILED, &map(4096), 4);
    rejects(&full, &map(4095), 3);
    let again = format!("{full}unmap 1000 40 0\n{}", many(10, |n| map(4100 + n)));
    is_the_limit(&again, FAILED, &map(0), 4);
}
