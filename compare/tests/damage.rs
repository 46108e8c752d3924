//! The traces for judges: the same for a seed, and of every verdict.

mod common;

use std::{collections::BTreeMap, fs};

use common::{complaint, recorded, run, DAMAGE};
use compare::{
    damage::{damaged, lines_of},
    judge::{judge, Fault, Size, Verdict},
    random::Random,
};

fn traces(seed: u64, count: u64) -> Vec<String> {
    let sessions: Vec<_> = (common::generated_names().iter())
        .map(|name| lines_of(&recorded(&format!("{name}.trace"))))
        .collect();
    let mut random = Random::new(seed);
    (0..count)
        .map(|_| damaged(&mut random, &sessions))
        .collect()
}

#[test]
fn a_seed_gives_the_same() {
    assert_eq!(traces(5, 100), traces(5, 100));
    assert_ne!(traces(5, 100), traces(6, 100));
}

#[test]
fn each_verdict_occurs() {
    let traces = traces(1, 2000);
    let mut times = BTreeMap::<String, u64>::new();
    for text in &traces {
        let kind = match judge(text.as_bytes()).expect("memory can be read") {
            Verdict::Accepted => "accepted".to_string(),
            Verdict::Ended { fault, .. } => format!("{fault:?}"),
        };
        *times.entry(kind).or_default() += 1;
    }
    let rules = (0..=10).map(|rule| (format!("{:?}", Fault::Rule(rule)), 15));
    let sizes = [Size::Reservations, Size::Handles, Size::Live, Size::Mapped];
    let sizes = (sizes.iter()).map(|size| (format!("{:?}", Fault::Size(*size)), 1));
    for (kind, at_least) in rules.chain(sizes).chain([("accepted".to_string(), 200)]) {
        let times = times.get(&kind).copied().unwrap_or_default();
        assert!(times >= at_least, "{kind} occurs {times} times");
    }
    let short = (traces.iter()).filter(|text| text.lines().count() <= 400);
    assert!(short.count() > traces.len() / 10 * 9);
}

#[test]
fn the_program_writes_a_file_each() {
    let folder = std::env::temp_dir().join(format!("rust_damage-{}", std::process::id()));
    fs::create_dir_all(&folder).expect("a folder is made");
    let into = folder.to_str().expect("a plain name");
    let session = common::sessions().join("tiny-1.trace");
    let session = session.to_str().expect("a plain name");
    let ran = run(DAMAGE, &["3", "20", "--into", into, session], b"");
    assert!(ran.good && ran.out.is_empty() && ran.err.is_empty());
    let written = fs::read_dir(&folder).expect("the folder is there").count();
    fs::remove_dir_all(&folder).expect("the folder is ours");
    assert_eq!(written, 20);
}

#[test]
fn bad_arguments_get_one_line() {
    let usage = "usage: rust_damage SEED COUNT --into DIR FILE ..";
    assert_eq!(complaint(DAMAGE, &["1", "2", "3"], b""), usage);
    assert_eq!(complaint(DAMAGE, &["1", "2", "--into", "d"], b""), usage);
    let said = complaint(DAMAGE, &["x", "2", "--into", "d", "f"], b"");
    assert_eq!(said, "SEED is not a number: x");
    let said = complaint(DAMAGE, &["1", "2", "--into", "d", "no such file"], b"");
    assert!(said.starts_with("no such file: "), "{said}");
}
