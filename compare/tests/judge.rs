//! The judge: R0, what failed records and a close do, the recorded sessions, and the program.

mod common;

use common::{complaint, judging::*, run, trace, JUDGE};
use compare::judge::judge;

#[test]
fn r0_open_is_first_and_once() {
    assert_eq!(said(b""), "rejected 1 0 0");
    rejects("", "malloc 4 1 0", 0);
    rejects("", "reserve 1000 40 0", 0);
    rejects("", "result 0 0 0", 0);
    rejects("", "open 0 40 0", 0);
    rejects(OPENED, "open 4 40 0", 0);
    rejects("", "open 4 40 0\nopen 4 40 0", 0);
    accepts("", "open 4 40 0\nresult 0 0 19");
    accepts("", "open 1 0 99\nresult 0 0 0");
    accepts("", OPENED);
}

#[test]
fn r0_runs_of_call_records_result() {
    rejects(OPENED, "result 0 0 0", 0);
    rejects(OPENED, "create 71 4 0", 0);
    rejects(OPENED, "create 71 4 2", 0);
    rejects(OPENED, "malloc 4 1 0\nmalloc 4 1 0", 0);
    rejects(OPENED, "malloc 4 1 0\ncreate 71 4 0\nfree 1000 0 0", 0);
    rejects(OPENED, "malloc 4 1 0\nresult 4 0 6\nresult 4 0 6", 0);
    accepts(
        OPENED,
        "malloc 4 1 0\nresult 4 0 6\nfree 0 0 0\nresult 0 0 16",
    );
}

#[test]
fn r0_a_missing_line() {
    assert_eq!(said(&trace("open 4 40 0")), "rejected 2 0 0");
    assert_eq!(said(&after(OPENED, "malloc 4 1 0")), "rejected 5 0 0");
    assert_eq!(
        said(&after(OPENED, "close 0 0 0\nsync 0 0 0")),
        "rejected 6 0 0"
    );
    accepts(OPENED, "close 0 0 0\nsync 0 0 0\nresult 0 0 0");
}

/// Whatever their numbers and code; their pages and pointers are no matter of the judge's.
#[test]
fn r0_small_buffers_stand_between_calls() {
    for word in ["small", "dropsmall"] {
        let line = format!("{word} 1000 4 0");
        rejects("", &line, 0);
        rejects("", &format!("open 4 40 0\n{line}"), 0);
        rejects("", &format!("open 4 40 0\nreserve 1000 40 0\n{line}"), 0);
        rejects(OPENED, &format!("malloc 4 1 0\n{line}"), 0);
        rejects(OPENED, &format!("free 1000 0 0\n{line}"), 0);
        rejects(OPENED, &format!("close 0 0 0\n{line}"), 0);
        rejects(OPENED, &format!("close 0 0 0\nsync 0 0 0\n{line}"), 0);
        accepts(OPENED, &line);
        accepts(
            OPENED,
            &format!("{line}\n{line}\nfree 0 0 0\nresult 0 0 16\n{line}"),
        );
        let ended = "close 0 0 0\nsync 0 0 0\nresult 0 0 0\n";
        accepts(
            OPENED,
            &format!("{ended}{line}\nfree 0 0 0\nresult 0 0 1\n{line}"),
        );
        accepts(OPENED, &format!("{word} 0 0 2"));
        let most = u64::MAX;
        accepts(OPENED, &format!("{word} {most} {most} {most}"));
        rejects(OPENED, &format!("{word} {most}0 {most} {most}"), 0);
        rejects(OPENED, &format!("{word} 1 2"), 0);
        rejects(OPENED, &format!("{word} 1 02 0"), 0);
    }
    rejects(OPENED, "drop 1 2 0", 0);
}

#[test]
fn r0_malformed_text() {
    let lines: [&[u8]; 24] = [
        b"",
        b"\r",
        b"close",
        b"close\t0\t0",
        b"close\t0\t0\t",
        b"close\t0\t0\t0\t",
        b"close\t0\t0\t0\t0",
        b"close\t0\t0\t0\r",
        b"close 0 0 0",
        b"close\t0\t0 0",
        b"close\t\t0\t0",
        b" close\t0\t0\t0",
        b"close\t0\t0\t0 ",
        b"close\t00\t0\t0",
        b"close\t0\t01\t0",
        b"close\t0\t0\t+1",
        b"close\t0\t0\t-1",
        b"close\t0\t0\t18446744073709551616",
        b"close\t0\t0\t100000000000000000000000000000",
        b"Close\t0\t0\t0",
        b"bad\t4\t0\t0",
        b"short\t4\t0\t0",
        b"close\t0\t0\t\xff",
        b"close\t0\t0\t0\0",
    ];
    for line in lines {
        let text = [&trace(OPENED), line, b"\nresult\t0\t0\t0\n"].concat();
        assert_eq!(said(&text), "rejected 4 0 0", "{}", line.escape_ascii());
    }
    let long = [b"close\t0\t0\t".to_vec(), vec![b'9'; 100_000]].concat();
    assert_eq!(said(&[trace(OPENED), long].concat()), "rejected 4 0 0");
    let largest = "18446744073709551615";
    accepts(
        OPENED,
        &format!("malloc {largest} {largest} {largest}\ngiveback {largest} {largest} {largest}\nresult 0 0 8"),
    );
}

#[test]
fn r0_the_last_line_feed_may_be_missing() {
    let whole = trace(OPENED);
    assert_eq!(said(&whole[..whole.len() - 1]), "accepted 0 0 0");
    assert_eq!(said(&whole[..whole.len() - 2]), "rejected 3 0 0");
    assert_eq!(said(&[&whole[..], b"\n"].concat()), "rejected 4 0 0");
    assert_eq!(said(b"\n"), "rejected 1 0 0");
}

#[test]
fn r0_after_a_close_with_0() {
    let closed = format!("{OPENED}close 0 0 0\nsync 0 0 0\ngiveback 1000 40 0\nresult 0 0 0\n");
    rejects(&closed, "malloc 4 1 0\ncreate 71 4 0", 0);
    rejects(&closed, "malloc 4 1 0\ncreate 71 4 2", 0);
    rejects(&closed, "close 0 0 0\nsync 0 0 1", 0);
    rejects(&closed, "malloc 4 1 0\nresult 0 0 0", 0);
    rejects(&closed, "malloc 4 1 0\nresult 0 0 2", 0);
    rejects(&closed, "malloc 4 1 0\nresult 1 0 1", 0);
    rejects(&closed, "free 4 0 0\nresult 0 1 1", 0);
    rejects(&closed, "close 0 0 0\nresult 0 0 0", 0);
    rejects(&closed, "open 4 40 0", 0);
    accepts(
        &closed,
        "malloc 4 1 0\nresult 0 0 1\nclose 0 0 0\nresult 0 0 1",
    );
    // Failed lines are counted in the result, which is 0 all the same.
    rejects(
        OPENED,
        "close 0 0 0\nsync 0 0 9\nresult 1 0 0\nfree 4 0 0\nresult 4 0 16",
        0,
    );
    accepts(
        OPENED,
        "close 0 0 0\nsync 0 0 9\nresult 1 0 4\nfree 4 0 0\nresult 4 0 16",
    );
    // With no record too.
    rejects(
        OPENED,
        "close 0 0 0\nresult 0 0 0\nfree 4 0 0\nresult 4 0 16",
        0,
    );
    accepts(
        OPENED,
        "close 0 0 0\nresult 0 0 0\nfree 4 0 0\nresult 0 0 1",
    );
}

#[test]
fn a_failed_record_meets_only_r0() {
    accepts_record(
        MADE,
        "reserve 0 0 1\ncreate 71 4 1\nmap 1 1 1\naccess 1 1 1\nunmap 1 1 1\nrelease 9 0 1\n\
         record 0 0 1\nasked 99 0 1\nwait 99 0 1\nsync 0 0 1\ngiveback 1 1 18446744073709551615",
    );
    // And it has no effect.
    rejects_record(OPENED, "create 71 4 1\nmap 1000 71 0", 3);
    rejects_record(MADE, "release 71 0 1\ncreate 71 4 0", 2);
    rejects_record(MADE, "unmap 1000 4 1\nmap 1000 71 0", 3);
    rejects_record(MADE, "reserve 2000 40 1\nmap 2000 71 0", 3);
    rejects_record(MADE, "record 9 1 1\nasked 9 0 0", 9);
    accepts_record(MADE, "record 9 1 1\nrecord 6 1 0");
}

#[test]
fn a_close_ends_buffers_at_its_first_record() {
    let live = with_live();
    accepts(&live, "close 0 0 0\nunmap 1000 4 0\nresult 0 0 0");
    accepts(
        &live,
        "close 0 0 0\nsync 0 0 1\nunmap 1000 4 0\nresult 0 0 2",
    );
    // Whatever the answer is, if there was a record.
    rejects(
        &live,
        "close 0 0 0\nsync 0 0 1\nresult 0 0 2\nfree 1000 0 0\nresult 4 7 0",
        8,
    );
    accepts(
        &live,
        "close 0 0 0\nsync 0 0 1\nresult 0 0 2\nmalloc 8 1 0\nresult 1000 8 0",
    );
    // With no record none end.
    accepts(
        &live,
        "close 0 0 0\nresult 0 0 4\nfree 1000 0 0\nresult 4 7 0",
    );
    rejects(
        &live,
        "close 0 0 0\nresult 0 0 4\nmalloc 8 1 0\nresult 1000 8 0",
        7,
    );
    rejects(
        &live,
        "close 0 0 0\nresult 0 0 4\nmalloc 4 1 0\nunmap 1000 4 0",
        4,
    );
}

#[test]
fn fields_that_no_rule_names_are_not_checked() {
    accepts(OPENED, "close 1 2 3\nsync 9 9 0\nresult 9 9 9");
    accepts_record(
        MADE,
        "create 1 9 0\nrecord 6 9 0\nasked 6 9 0\nwait 6 8 0\nrelease 1 9 0",
    );
    accepts("", "open 4 40 7\nreserve 1000 40 0\nresult 5 5 5");
}

/// Verdicts of the recorded sessions, by name.
#[test]
fn recorded_sessions() {
    let mut names = 0;
    for line in common::recorded("verdicts.txt").lines() {
        let (name, verdict) = line.split_once('\t').expect("a name and a verdict");
        let text = common::recorded(&format!("{name}.trace"));
        let got = judge(text.as_bytes()).expect("memory can be read");
        assert_eq!(got.to_string(), verdict, "{name}");
        names += 1;
    }
    assert_eq!(names, common::generated_names().len() + 1);
}

#[test]
fn the_program_says_one_line() {
    let text = trace(OPENED);
    let ran = run(JUDGE, &[], &text);
    assert!(ran.good && ran.err.is_empty());
    assert_eq!(ran.out, "accepted\t0\t0\t0\n");
    let ran = run(JUDGE, &[], b"open\t0\t40\t0\n");
    assert!(ran.good && ran.err.is_empty());
    assert_eq!(ran.out, "rejected\t1\t0\t0\n");
    let file = common::sessions().join("tiny-1.trace");
    let file = file.to_str().expect("a plain name");
    let ran = run(JUDGE, &[file, file], b"");
    assert_eq!(ran.out, "accepted\t0\t0\t0\n".repeat(2));
    assert!(complaint(JUDGE, &["no such file"], b"").starts_with("no such file: "));
    assert!(complaint(JUDGE, &["--tables"], b"").starts_with("no such option: --tables"));
}
