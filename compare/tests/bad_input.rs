//! Bad input gets one clear line on standard error and a failing end.

mod common;

use common::{complaint, run, trace, COUNT, GENERATE, REPLAY};

const GOOD: &str = "open 4 40 0\nreserve 1000 40 0\nresult 1000 4 0\nfree 0 0 0";

fn then(line: &[u8]) -> Vec<u8> {
    [&trace(GOOD), line].concat()
}

#[test]
fn malformed_lines_are_named() {
    let lines: [(&[u8], &str); 12] = [
        (b"\n", "line 5: not a word and three numbers parted by tabs"),
        (
            b"close\t0\t0",
            "line 5: not a word and three numbers parted by tabs",
        ),
        (
            b"close\t0\t0\t0\t0\n",
            "line 5: not a word and three numbers parted by tabs",
        ),
        (
            b"close 0 0 0\n",
            "line 5: not a word and three numbers parted by tabs",
        ),
        (b"close\t0\t0\t0\r\n", "line 5: not a decimal number: 0\\r"),
        (b"close\t0\t0\t-1\n", "line 5: not a decimal number: -1"),
        (b"close\t0\t0\t\n", "line 5: not a decimal number: "),
        (b"close\t0\t00\t0\n", "line 5: a needless leading zero: 00"),
        (
            b"close\t0\t18446744073709551616\t0\n",
            "line 5: above 2^64 - 1: 18446744073709551616",
        ),
        (b"short\t1\t0\t0\n", "line 5: no such word: short"),
        (b"close\t0\t0\t\xff\n", "line 5: not plain text"),
        (
            b"open\t4\t40\t0\n",
            "line 5: open is the first line and only that",
        ),
    ];
    for (line, wanted) in lines {
        assert_eq!(complaint(REPLAY, &[], &then(line)), wanted.trim_end());
        let counted = complaint(COUNT, &[], &then(line));
        assert_eq!(counted, format!("standard input: {}", wanted.trim_end()));
    }
}

#[test]
fn a_first_line_opens() {
    let wanted = "line 1: open is the first line and only that";
    assert_eq!(complaint(REPLAY, &[], &trace("close 0 0 0")), wanted);
    assert_eq!(complaint(REPLAY, &[], &trace("reserve 1000 40 0")), wanted);
}

/// A line's form is tested before the waiting call runs.
#[test]
fn a_waiting_call_is_not_run() {
    let ran = run(REPLAY, &[], &then(b"bad\t1\t0\t0\n"));
    assert_eq!(
        ran.out.as_bytes(),
        trace("open 4 40 0\nreserve 1000 40 0\nresult 1000 4 0")
    );
}

#[test]
fn missing_files_are_named() {
    for program in [REPLAY, COUNT] {
        let line = complaint(program, &["no-such-file.trace"], b"");
        assert!(line.starts_with("no-such-file.trace: "), "{line}");
    }
}

#[test]
fn unknown_options_are_named() {
    assert!(complaint(REPLAY, &["--table"], b"").starts_with("no such option: --table"));
    assert!(complaint(REPLAY, &["a", "b"], b"").starts_with("one file at most"));
    assert!(complaint(COUNT, &["-x"], b"").starts_with("no such option: -x"));
}

#[test]
fn words_of_rust_generate_are_checked() {
    let bad: [(&[&str], &str); 15] = [
        (&["1"], "SEED and CALLS are wanted; --help says more"),
        (&["x", "1"], "SEED is not a number: x"),
        (&["1", "-1"], "CALLS is not a number: -1"),
        (&["1", "1", "defrag"], "not a word and a value: defrag"),
        (&["1", "1", "bias=none"], "no such bias: none"),
        (&["1", "1", "tide=1"], "no such word: tide"),
        (&["1", "1", "free=much"], "not a number: free=much"),
        (&["1", "1", "close=1"], "neither yes nor no: 1"),
        (&["1", "1", "fail=record"], "no such call to fail: record"),
        (
            &["1", "1", "page=3"],
            "the rules answer 19 to this opening",
        ),
        (
            &["1", "1", "streams=0"],
            "streams and largest are from 1 to 256",
        ),
        (
            &["1", "1", "largest=257"],
            "streams and largest are from 1 to 256",
        ),
        (&["1", "1", "done=101"], "a chance is at most 100 percent"),
        (
            &["1", "1", "initial=9", "memory=8"],
            "memory is at least the initial pages",
        ),
        (
            &["1", "1", "fail=map", "close=yes"],
            "a session that ends by a failure has no close",
        ),
    ];
    for (arguments, wanted) in bad {
        assert_eq!(complaint(GENERATE, arguments, b""), wanted);
    }
}

#[test]
fn help_is_given() {
    for (program, arguments) in [
        (REPLAY, &["--help"][..]),
        (COUNT, &["--help"]),
        (GENERATE, &["--help"]),
        (GENERATE, &[]),
    ] {
        let ran = run(program, arguments, b"");
        assert!(ran.good && ran.out.starts_with("usage: ") && ran.err.is_empty());
    }
}
