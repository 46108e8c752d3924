//! Random sessions at scale: a program that differs is found, and its session shrunk.

mod common;

use std::{fs, path::PathBuf, process::Command};

use common::{complaint, run, Ran, REPLAY, SCALE};

/// A folder of the test's own.
fn folder(name: &str) -> PathBuf {
    let folder = PathBuf::from(env!("CARGO_TARGET_TMPDIR")).join(name);
    fs::create_dir_all(&folder).expect("a folder is made");
    folder
}

fn scale(name: &str, sessions: &str, program: &str) -> (Ran, PathBuf) {
    let folder = folder(name);
    let output = Command::new(SCALE)
        .arg(sessions)
        .arg(&folder)
        .arg(format!("rust={REPLAY}"))
        .arg(program)
        .env("RUST_REPLAY", REPLAY)
        .output()
        .expect("the program ends");
    let text = |bytes| String::from_utf8(bytes).expect("plain text");
    let ran = Ran {
        good: output.status.success(),
        out: text(output.stdout),
        err: text(output.stderr),
    };
    (ran, folder)
}

fn faulty(name: &str) -> String {
    let tests = PathBuf::from(env!("CARGO_MANIFEST_DIR")).join("tests/faulty");
    tests.join(name).display().to_string()
}

/// The calls of the smallest session that was kept, and the differing line's two forms.
fn smallest(folder: &std::path::Path) -> (String, String, String) {
    let kept = |kind| fs::read_to_string(folder.join(format!("difference-2.{kind}")));
    let (trace, wanted, said) = (kept("trace"), kept("wanted"), kept("said"));
    let (trace, wanted, said) = (trace.unwrap(), wanted.unwrap(), said.unwrap());
    let calls = ["open", "malloc", "free", "close"];
    let word = |line: &str| line.split('\t').next().unwrap_or_default().to_string();
    let words: Vec<String> = trace.lines().map(word).collect();
    let words: Vec<&str> = (words.iter().map(String::as_str))
        .filter(|word| calls.contains(word))
        .collect();
    let pair = wanted.lines().zip(said.lines()).find(|(a, b)| a != b);
    let (a, b) = pair.unwrap_or_default();
    (words.join(" "), a.to_string(), b.to_string())
}

#[test]
fn the_rust_is_itself() {
    let (ran, _) = scale("itself", "16", &format!("rust={REPLAY}"));
    assert!(ran.good, "{}{}", ran.out, ran.err);
    assert!(ran.out.contains("\nanswer\t") && ran.out.contains("\nrule\t"));
    assert!(ran.out.contains("compare: 16 random sessions, "));
    assert!(ran.out.ends_with(" calls, 0 differences\n"));
}

#[test]
fn a_wrong_line_is_found_and_shrunk() {
    let (ran, folder) = scale("wait", "16", &format!("trace={}", faulty("wait")));
    assert!(!ran.good);
    let (calls, wanted, said) = smallest(&folder);
    assert_eq!(calls, "open malloc free malloc");
    assert!(wanted.starts_with("wait\t") && said.starts_with("wait\t"));
    let shown = format!("the Rust\t{wanted}\n{}\t{said}\n", faulty("wait"));
    assert!(ran.out.contains(&shown), "{}", ran.out);
}

#[test]
fn a_wrong_table_is_found_and_shrunk() {
    let (ran, folder) = scale("zombie", "16", &format!("tables={}", faulty("zombie")));
    assert!(!ran.good);
    let (calls, wanted, _) = smallest(&folder);
    assert_eq!(calls, "open malloc free malloc");
    assert!(wanted.starts_with("t-zombie\t"), "{wanted}");
}

#[test]
fn a_failing_end_is_a_difference() {
    let (ran, folder) = scale("end", "16", &format!("trace={}", faulty("end")));
    assert!(!ran.good);
    assert_eq!(smallest(&folder).0, "open malloc");
    assert!(ran.out.contains("/end fails"), "{}", ran.out);
}

/// The trace that is given is its own output in half of the sessions, but not in the others.
#[test]
fn copying_does_not_do() {
    let (ran, folder) = scale("copy", "16", "trace=cat");
    assert!(!ran.good);
    assert_eq!(smallest(&folder).0, "open");
}

#[test]
fn endless_output_is_cut() {
    let (ran, _) = scale("endless", "2", "trace=yes");
    assert!(!ran.good);
    assert!(ran.out.contains("the Rust\topen\t") && ran.out.contains("\nyes\ty\n"));
}

#[test]
fn bad_words_are_named() {
    let bad: [(&[&str], &str); 5] = [
        (&["1"], "SESSIONS and FOLDER are wanted; --help says more"),
        (&["x", "."], "SESSIONS is not a number: x"),
        (&["1", "."], "the first program is rust=REPLAY"),
        (&["1", ".", "trace=cat"], "the first program is rust=REPLAY"),
        (&["1", ".", "cat"], "neither rust=, trace= nor tables=: cat"),
    ];
    for (arguments, wanted) in bad {
        assert_eq!(complaint(SCALE, arguments, b""), wanted);
    }
    let line = complaint(SCALE, &["1", ".", "rust=no-such-program"], b"");
    assert!(line.starts_with("no-such-program: "), "{line}");
    assert!(run(SCALE, &["--help"], b"").out.starts_with("usage: "));
}
