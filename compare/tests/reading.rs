//! How rust_replay reads a trace: which value a line lends, and which lines it passes over.

mod common;

use common::{complaint, run, trace, REPLAY};

const OPENED: &str = "open 4 40 0\nreserve 1000 40 0\nresult 1000 4 0\n";
const ONE_PAGE: &str =
    "malloc 4 1 0\ncreate 71 4 0\nmap 1000 71 0\naccess 1000 4 0\nrecord 0 1 0\n\
                        result 1000 4 0\n";

fn printed(input: &[u8]) -> String {
    let ran = run(REPLAY, &[], input);
    assert!(ran.good && ran.err.is_empty(), "{}", ran.err);
    ran.out
}

fn whole() -> Vec<u8> {
    trace(&format!("{OPENED}{ONE_PAGE}"))
}

#[test]
fn the_example_is_its_own_output() {
    assert_eq!(printed(&whole()).as_bytes(), whole());
}

#[test]
fn nothing_prints_nothing() {
    assert_eq!(printed(b""), "");
}

#[test]
fn a_last_line_needs_no_line_feed() {
    let text = whole();
    assert_eq!(printed(&text[..text.len() - 1]).as_bytes(), text);
}

#[test]
fn results_are_passed_over() {
    let text = trace(
        "open 4 40 0\nresult 9 9 9\nreserve 1000 40 0\nmalloc 4 1 0\ncreate 71 4 0\nresult 0 0 0\n\
         result 1 1 1\nmap 1000 71 0\naccess 1000 4 0\nrecord 0 1 0",
    );
    assert_eq!(printed(&text).as_bytes(), whole());
}

/// Behind line 1 as results are, wherever they stand.
#[test]
fn small_buffers_are_passed_over() {
    let text = trace(
        "open 4 40 0\nsmall 9 3 0\nreserve 1000 40 0\ndropsmall 9 3 1\nresult 1000 4 0\n\
         small 0 3 2\nmalloc 4 1 0\nsmall 8 1 0\ncreate 71 4 0\ndropsmall 8 1 0\nmap 1000 71 0\n\
         access 1000 4 0\nrecord 0 1 0\nresult 1000 4 0\nsmall 9 3 0",
    );
    assert_eq!(printed(&text).as_bytes(), whole());
    let first = trace(&format!("small 9 3 0\n{OPENED}"));
    let line = "line 1: open is the first line and only that";
    assert_eq!(complaint(REPLAY, &[], &first), line);
    let malformed = trace(&format!("{OPENED}small 9 3"));
    let line = "line 4: not a word and three numbers parted by tabs";
    assert_eq!(complaint(REPLAY, &[], &malformed), line);
}

#[test]
fn fields_shown_as_0_are_not_looked_at() {
    let text = trace(
        "open 4 40 0\nreserve 1000 7 0\nmalloc 4 1 9\ncreate 71 9 0\nmap 9 9 0\naccess 9 9 0\n\
         record 9 9 0",
    );
    assert_eq!(printed(&text).as_bytes(), whole());
}

/// A line's own word picks the value, whatever call it answers.
#[test]
fn values_go_by_the_word() {
    let text = trace(
        "open 4 40 0\ncreate 1000 40 0\nmalloc 4 1 0\nasked 9 71 0\nsync 1 1 0\nsync 1 1 0\nsync 1 1 0",
    );
    assert_eq!(printed(&text).as_bytes(), whole());
    let map = trace("open 4 40 0\nmap 1000 40 0");
    let line = "line 1: the rules answer 15 here, which the Rust has nothing like";
    assert_eq!(complaint(REPLAY, &[], &map), line);
}

#[test]
fn spare_answers_are_ignored() {
    let text = trace(&format!("{OPENED}{ONE_PAGE}create 5 4 1\nwait 1 1 1"));
    assert_eq!(printed(&text).as_bytes(), whole());
}

#[test]
fn asked_is_complete_for_0_and_1_alone() {
    let freed = format!("{OPENED}{ONE_PAGE}free 1000 0 0\nrecord 1 1 0\nresult 4 1 0\n");
    for (lent, shown, fits) in [
        ("asked 1 1 0", "asked\t1\t1\t0\n", true),
        ("asked 1 2 0", "asked\t1\t0\t0\n", false),
        ("asked 1 1 600", "asked\t1\t0\t600\n", false),
    ] {
        // Fit asks; where it fails, the same region is asked again, waited for and moved.
        let lent = format!("{lent}\n{lent}\nwait 0 0 0\nmap 0 0 0\naccess 0 0 0\nrecord 0 0 0");
        let out = printed(&trace(&format!("{freed}malloc 4 2 0\n{lent}")));
        let call = &out[trace(&freed).len()..];
        assert!(
            call.starts_with(&format!("malloc\t4\t2\t0\n{shown}")),
            "{call}"
        );
        assert_eq!(call.contains("wait"), !fits, "{call}");
    }
}

#[test]
fn a_file_may_be_named() {
    let file = common::sessions().join("tiny-1.trace");
    let ran = run(REPLAY, &[file.to_str().expect("a plain name")], b"");
    assert_eq!(ran.out, common::recorded("tiny-1.trace"));
}

#[test]
fn a_closed_pool_has_no_tables() {
    let closed = "close 0 0 0\nsync 0 0 0\nunmap 1000 4 0\nrelease 71 0 0\ngiveback 1000 40 0\n\
                  result 0 0 0\n";
    let text = format!("{OPENED}{ONE_PAGE}{closed}");
    let ran = run(REPLAY, &["--tables"], &trace(&text));
    assert!(ran
        .out
        .as_bytes()
        .ends_with(&[&trace(closed)[..], b"t-none\n"].concat()));
}
