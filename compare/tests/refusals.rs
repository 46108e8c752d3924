//! What the Rust has nothing like is said on one line, and never printed as an answer.

mod common;

use common::{complaint, run, trace, REPLAY};
use compare::{
    card::RandomCard,
    session::{Call, Session},
    text::trace_of,
    words::Words,
};

const OPENED: &str = "open 4 40 0\nreserve 1000 40 0\n";
const ONE_PAGE: &str = "create 7 4 0\nmap 1000 7 0\naccess 1000 4 0\nrecord 0 1 0\n";

fn nothing_like(line: usize, number: u64) -> String {
    format!("line {line}: the rules answer {number} here, which the Rust has nothing like")
}

fn refused(text: &str) -> String {
    complaint(REPLAY, &[], &trace(text))
}

fn refused_after_opening(text: &str) -> String {
    refused(&format!("{OPENED}{text}"))
}

#[test]
fn openings_answered_19() {
    for open in [
        "0 40 0",
        "4 0 0",
        "4 42 0",
        "4 70368744177668 0",
        "4 40 11",
        "1 512 257",
    ] {
        assert_eq!(
            refused(&format!("open {open}")),
            nothing_like(1, 19),
            "{open}"
        );
    }
    assert!(
        run(
            REPLAY,
            &[],
            &trace("open 4 70368744177664 0\nreserve 4 1 0")
        )
        .good
    );
}

#[test]
fn sizes_answered_6() {
    assert_eq!(refused_after_opening("malloc 6 1 0"), nothing_like(3, 6));
    assert_eq!(refused_after_opening("malloc 0 1 0"), nothing_like(3, 6));
}

#[test]
fn calls_after_a_close() {
    let closed = "close 0 0 0\nsync 0 0 0\ngiveback 1000 40 0\n";
    for call in ["malloc 4 1 0", "free 0 0 0", "close 0 0 0"] {
        assert_eq!(
            refused_after_opening(&format!("{closed}{call}")),
            nothing_like(6, 1)
        );
    }
}

#[test]
fn calls_of_a_stopped_pool() {
    let stopped = format!("{OPENED}malloc 4 1 0\ncreate 0 4 3\n");
    let ran = run(REPLAY, &["--tables"], &trace(&stopped));
    assert!(ran.good && ran.err.is_empty());
    let tables = "result 3 0 14\nt-hole 1004 36\nt-root 1000\nt-counter 0";
    assert!(ran.out.as_bytes().ends_with(&trace(tables)), "{}", ran.out);
    assert_eq!(
        refused(&format!("{stopped}close 0 0 0")),
        "line 5: the pool is stopped since the answer 14, while the Rust goes on"
    );
}

#[test]
fn mallocs_on_the_initial_stream() {
    let opened = "open 4 40 1\nreserve 1000 40 0\ncreate 7 4 0\nmap 1000 7 0\naccess 1000 4 0\n\
                  record 0 0 0\nsync 0 0 0\n";
    assert_eq!(
        refused(&format!("{opened}malloc 4 0 0")),
        "line 8: the Rust's initial stream cannot be named from outside"
    );
}

#[test]
fn answers_that_run_out() {
    assert_eq!(
        refused("open 4 40 0\nresult 1000 4 0"),
        "line 1: answers ran out, which the Rust has nothing like"
    );
    let text = format!("{OPENED}malloc 8 1 0\n{ONE_PAGE}");
    let ran = run(REPLAY, &[], &trace(&text));
    assert_eq!(
        ran.out.as_bytes(),
        trace(&format!("{OPENED}result 1000 4 0"))
    );
    assert_eq!(
        ran.err,
        "line 3: answers ran out, which the Rust has nothing like\n"
    );
}

#[test]
fn codes_that_c_cannot_return() {
    let text = "malloc 4 1 0\ncreate 0 4 ";
    assert!(run(REPLAY, &[], &trace(&format!("{OPENED}{text}2147483647"))).good);
    let line = refused_after_opening(&format!("{text}2147483648"));
    assert_eq!(
        line,
        "line 3: code 2147483648 is none that a C function can return"
    );
}

#[test]
fn panics_are_one_line() {
    let panics = [
        ("open 4 40 0\nreserve 0 40 1", 1),
        ("open 4 40 1\nreserve 1000 40 0\ncreate 0 4 2", 1),
        ("open 4 40 0\nreserve 1000 40 0\nclose 0 0 0\nsync 0 0 1", 3),
        (
            "open 4 40 0\nreserve 1000 40 0\nclose 0 0 0\nsync 0 0 0\ngiveback 1000 40 1",
            3,
        ),
        (
            "open 4 40 0\nreserve 1000 40 0\nmalloc 4 1 0\ncreate 7 4 0\nmap 1000 7 0\n\
             access 1000 4 0\nrecord 0 1 1",
            3,
        ),
    ];
    for (text, line) in panics {
        let said = refused(text);
        assert!(
            said.starts_with(&format!("line {line}: the Rust panics here: ")),
            "{said}"
        );
    }
}

#[test]
fn bases_answered_15() {
    for base in ["0", "1002", "9223372036854775772", "1000", "964", "1036"] {
        let text = format!("malloc 40 1 0\nreserve {base} 40 0\ncreate 7 4 0");
        let held = "malloc 4 1 0\ncreate 7 4 0\nmap 1000 7 0\naccess 1000 4 0\nrecord 0 1 0\n";
        assert_eq!(
            refused_after_opening(&format!("{held}{text}")),
            nothing_like(8, 15),
            "{base}"
        );
    }
    let last = "open 4 40 0\nreserve 9223372036854775768 40 0";
    assert!(run(REPLAY, &[], &trace(last)).good);
}

#[test]
fn handles_answered_15() {
    let text = format!("malloc 4 1 0\n{ONE_PAGE}malloc 4 1 0\ncreate 7 4 0");
    assert_eq!(refused_after_opening(&text), nothing_like(8, 15));
    let twice = "malloc 8 1 0\ncreate 7 4 0\nmap 1000 7 0\ncreate 7 4 0";
    assert_eq!(refused_after_opening(twice), nothing_like(3, 15));
}

/// A trace that leads up to a ceiling, on a driver that never fails and completes no event.
fn led_up(page_size: u64, va_size: u64, calls: impl IntoIterator<Item = Led>) -> Vec<u8> {
    let words = ["done=0", "oom=0", "refuse=0", "touch=0", "memory=256"].map(str::to_string);
    let opening = [format!("page={page_size}"), format!("va_size={va_size}")];
    let words = Words::read(&[&words[..], &opening].concat()).expect("good words");
    let mut session = Session::new(page_size, Box::new(RandomCard::new(1, words)));
    let open = Call::Open {
        page_size,
        va_size,
        initial_pages: 0,
    };
    let mut text = trace_of(open, &session.run(open).expect("it opens"));
    let mut last = 0;
    for led in calls {
        let call = match led {
            Led::Malloc(bytes, stream) => Call::Malloc { bytes, stream },
            Led::FreeLast => Call::Free { address: last },
        };
        let outcome = session.run(call).expect("no panic");
        assert_eq!(outcome.result.answer, 0);
        last = outcome.result.first;
        text += &trace_of(call, &outcome);
    }
    text.into_bytes()
}

#[derive(Clone, Copy)]
enum Led {
    Malloc(u64, u64),
    FreeLast,
}

/// The last call is at the line after those that lead up to it.
fn refused_at_ceiling(led: Vec<u8>, last: &str) -> (usize, String) {
    let line = led.iter().filter(|byte| **byte == b'\n').count() + 1;
    (line, complaint(REPLAY, &[], &[led, trace(last)].concat()))
}

#[test]
fn spans_answered_7() {
    let led = led_up(1, 1000, [Led::Malloc(1, 1); 128]);
    let (line, said) = refused_at_ceiling(led, "malloc 1 1 0");
    assert_eq!(said, nothing_like(line, 7));
}

#[test]
fn pages_answered_9() {
    let led = led_up(1, 1000, [Led::Malloc(255, 1)]);
    let (line, said) = refused_at_ceiling(led.clone(), "malloc 2 1 0\ncreate 0 1 2");
    assert_eq!(said, nothing_like(line, 9));
    let room = "malloc 1 1 0\ncreate 999 1 0\nmap 0 0 0\naccess 0 0 0\nrecord 0 0 0";
    assert!(run(REPLAY, &[], &[led, trace(room)].concat()).good);
}

/// Each malloc asks for a page more on the other stream, and so makes what was free a zombie.
#[test]
fn zombies_answered_10() {
    let calls = |end| (1..end).flat_map(|n| [Led::Malloc(n, n % 2), Led::FreeLast]);
    let asked = "asked 0 0 0\n".repeat(128);
    let (line, said) = refused_at_ceiling(
        led_up(1, 20000, calls(130)),
        &format!("malloc 130 0 0\n{asked}"),
    );
    assert_eq!(said, nothing_like(line, 10));
    led_up(1, 20000, calls(129));
}

#[test]
fn roots_answered_11() {
    let led = led_up(4, 4, [Led::Malloc(4, 1); 16]);
    let (line, said) = refused_at_ceiling(led, "malloc 4 1 0");
    assert_eq!(said, nothing_like(line, 11));
}
