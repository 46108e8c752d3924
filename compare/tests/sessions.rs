//! The recorded sessions show every rule and every answer that the Rust has.

mod common;

use compare::{count::Count, rules::Rule, text::trace_of};

const ANSWERS: [u64; 6] = [0, 8, 12, 13, 14, 16];
const AT_LEAST: u64 = 3;

fn recorded() -> impl Iterator<Item = (String, String)> {
    common::generated_names().into_iter().map(|name| {
        let text = common::recorded(&format!("{name}.trace"));
        (name, text)
    })
}

/// Lines of small buffers are passed over, and not printed.
fn without_small(text: &str) -> String {
    let lines = text.split_inclusive('\n');
    lines
        .filter(|line| !line.starts_with("small\t") && !line.starts_with("dropsmall\t"))
        .collect()
}

fn counted() -> Count {
    let mut count = Count::default();
    for (name, text) in recorded() {
        (count.add(text.as_bytes())).unwrap_or_else(|message| panic!("{name}: {message}"));
    }
    count
}

#[test]
fn each_is_its_own_replay() {
    for (name, text) in recorded() {
        let mut replayed = String::new();
        compare::replay::replay(text.as_bytes(), |step| {
            replayed += &trace_of(step.call, &step.outcome);
        })
        .unwrap_or_else(|message| panic!("{name}: {message}"));
        assert!(
            without_small(&text) == replayed,
            "{name} is not its own replay"
        );
    }
}

#[test]
fn each_rule_and_answer_occurs() {
    let count = counted();
    for rule in Rule::ALL {
        let sessions = count.rules.get(rule).map_or(0, |tally| tally.sessions);
        assert!(
            sessions >= AT_LEAST,
            "{} is in {sessions} sessions",
            rule.text()
        );
    }
    assert_eq!(count.answers.keys().copied().collect::<Vec<_>>(), ANSWERS);
    for (answer, tally) in &count.answers {
        assert!(
            tally.sessions >= AT_LEAST,
            "{answer} is in {} sessions",
            tally.sessions
        );
    }
}

/// The manager's sessions show small buffers, failures of both words, and a close that finds some.
#[test]
fn small_buffers_occur() {
    let texts: Vec<String> = (recorded())
        .filter(|(name, _)| name.starts_with("manager-"))
        .map(|(_, text)| text)
        .collect();
    assert_eq!(texts.len(), 3);
    for text in &texts {
        let lines: Vec<Vec<&str>> = text
            .lines()
            .map(|line| line.split('\t').collect())
            .collect();
        for word in ["small", "dropsmall"] {
            let of_word = || lines.iter().filter(|line| line[0] == word);
            assert!(of_word().any(|line| line[3] == "0"));
            assert!(of_word().any(|line| line[3] != "0"));
        }
    }
    let closes = texts.iter().filter(|text| text.contains("\nclose\t"));
    let mut found = 0;
    for text in closes {
        let (before, _) = text.split_once("\nclose\t").expect("a close");
        let last = before.lines().last().expect("a line");
        assert!(last.starts_with("dropsmall\t"), "{last}");
        found += 1;
    }
    assert_eq!(found, 2);
}

/// The ceilings are reached, but for that on holes: few stand side by side here.
#[test]
fn ceilings_are_reached() {
    let count = counted();
    let most = &count.most;
    assert_eq!(
        (most.pages, most.spans, most.zombies, most.roots),
        (256, 128, 128, 16)
    );
}
