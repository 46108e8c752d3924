//! Traces that come to one of the judge's sizes, just below, at or beyond it.

use crate::{judge::Size, random::Random, text::line};

const PAGE: u64 = 4;

/// Some is let go and taken again on the way: what is held counts, not totals.
pub fn crowded(random: &mut Random) -> Vec<String> {
    // Mapped pages take thousands of lines.
    let sizes = [Size::Reservations, Size::Handles, Size::Live];
    let size = if random.percent(20) {
        Size::Mapped
    } else {
        random.pick(&sizes)
    };
    let beyond = size.limit() as u64 + 1;
    let spoiled = random.percent(30);
    let wanted = if spoiled {
        beyond
    } else {
        beyond - 2 + random.below(4)
    };
    let let_go = random.pick(&[0, 0, 1, 3, 12]);
    let mut lines = match size {
        Size::Reservations => reservations(wanted, let_go),
        Size::Handles => handles(wanted, let_go),
        Size::Live => live(wanted, let_go),
        Size::Mapped => mapped(wanted, let_go),
    };
    if spoiled {
        spoil_the_last(random, &mut lines);
    }
    if size == Size::Live {
        lines.push(line("close", 0, 0, 0));
    }
    lines.push(line("result", 0, 0, 14));
    lines
}

fn opened(va_size: u64) -> Vec<String> {
    vec![line("open", PAGE, va_size, 0)]
}

/// `wanted` lines of `take`; after the first half, `let_go` of `leave`, each with a `take` more.
fn fill(
    lines: &mut Vec<String>,
    wanted: u64,
    let_go: u64,
    take: impl Fn(u64) -> String,
    leave: impl Fn(u64) -> String,
) {
    for place in 0..wanted {
        lines.push(take(place));
        if place == wanted / 2 {
            for gone in 0..let_go.min(place) {
                lines.push(leave(gone));
                lines.push(take(gone));
                lines.push(leave(gone));
            }
            for gone in 0..let_go.min(place) {
                lines.push(take(gone));
            }
        }
    }
}

fn reservations(wanted: u64, let_go: u64) -> Vec<String> {
    let va_size = 5 * PAGE;
    let mut lines = opened(va_size);
    let base = |place| 1000 + place * va_size;
    fill(
        &mut lines,
        wanted,
        let_go,
        |place| line("reserve", base(place), va_size, 0),
        |place| line("giveback", base(place), va_size, 0),
    );
    lines
}

fn handles(wanted: u64, let_go: u64) -> Vec<String> {
    let mut lines = opened(5 * PAGE);
    fill(
        &mut lines,
        wanted,
        let_go,
        |handle| line("create", handle, PAGE, 0),
        |handle| line("release", handle, 0, 0),
    );
    lines
}

fn mapped(wanted: u64, let_go: u64) -> Vec<String> {
    let va_size = 600 * PAGE;
    let mut lines = opened(va_size);
    for place in 0..wanted / 600 + 1 {
        lines.push(line("reserve", 4000 + place * va_size, va_size, 0));
    }
    lines.push(line("create", 7, PAGE, 0));
    fill(
        &mut lines,
        wanted,
        let_go,
        |place| line("map", 4000 + place * PAGE, 7, 0),
        |place| line("unmap", 4000 + place * PAGE, PAGE, 0),
    );
    lines
}

/// Each taking and leaving is a call of its own; the opening has no result yet.
fn live(wanted: u64, let_go: u64) -> Vec<String> {
    let va_size = wanted * PAGE;
    let mut lines = opened(va_size);
    lines.push(line("reserve", 1000, va_size, 0));
    for place in 0..wanted {
        lines.push(line("create", place, PAGE, 0));
        lines.push(line("map", 1000 + place * PAGE, place, 0));
    }
    lines.push(line("result", 1000, PAGE, 0));
    let address = |place| 1000 + place * PAGE;
    let malloc = line("malloc", PAGE, 1, 0);
    fill(
        &mut lines,
        wanted,
        let_go,
        |place| malloc.clone() + &line("result", address(place), PAGE, 0),
        |place| line("free", address(place), 0, 0) + &line("result", PAGE, 1, 0),
    );
    // Each entry held two lines.
    lines = lines
        .concat()
        .lines()
        .map(|line| format!("{line}\n"))
        .collect();
    lines
}

/// The line that would be too large breaks its rule too, as it repeats the first of its word; or
/// it fails.
fn spoil_the_last(random: &mut Random, lines: &mut [String]) {
    let last = lines.len() - 1;
    let (word, _) = lines[last].split_once('\t').expect("a line has a tab");
    let first = lines.iter().find(|line| line.starts_with(word));
    let first = first.expect("the last is one").clone();
    lines[last] = if random.percent(70) {
        first
    } else {
        line(word, 0, 0, 1)
    };
}
