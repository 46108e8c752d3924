//! Traces for judges to differ on: parts of sessions with something changed, and made-up ones.

use crate::{crowd::crowded, invent::invented, random::Random, text::line};

/// Lines with their line feeds.
type Lines = Vec<String>;

/// Most parts of sessions are no longer than this.
const SHORT: u64 = 400;

const WORDS: [&str; 20] = [
    "open",
    "malloc",
    "free",
    "close",
    "result",
    "reserve",
    "create",
    "map",
    "access",
    "unmap",
    "release",
    "record",
    "asked",
    "wait",
    "sync",
    "giveback",
    "small",
    "dropsmall",
    "bad",
    "short",
];

/// The driver's words among them, and those of small buffers.
const RECORDS: &[&str] = WORDS.split_at(5).1.split_at(11).0;
const SMALL: &[&str] = WORDS.split_at(16).1.split_at(2).0;

/// Changes one thing, or nothing where the lines do not have it.
type Damage = fn(&mut Random, &mut Lines);

/// How often each is chosen, of the sum of all.
const DAMAGES: [(u64, Damage); 17] = [
    (40, change_a_number),
    (10, change_a_number_everywhere),
    (8, change_a_code),
    (10, change_a_result),
    (8, drop_a_line),
    (6, double_a_line),
    (5, swap_two_lines),
    (6, move_a_line),
    (5, change_a_word),
    (14, insert_a_line),
    (8, insert_small),
    (5, malform_a_line),
    (3, cut),
    (4, move_a_call),
    (4, drop_a_call),
    (6, close_early),
    (5, go_on_after_the_end),
];

/// A session's lines.
pub fn lines_of(session: &str) -> Lines {
    session.split_inclusive('\n').map(str::to_string).collect()
}

/// One trace: the same for the same numbers.
pub fn damaged(random: &mut Random, sessions: &[Lines]) -> String {
    let (mut lines, damages) = match random.below(100) {
        0..4 => (crowded(random), 20),
        4..30 => (invented(random), 20),
        _ => (part_of(random, sessions), 90),
    };
    let times = match random.below(100) {
        chance if chance >= damages => 0,
        0..15 => 2 + random.below(3),
        _ => 1,
    };
    for _ in 0..times {
        damage(random, &mut lines);
    }
    let mut text = lines.concat();
    if random.percent(3) {
        text.pop();
    }
    text
}

/// From the opening to the end of a call, or of small buffers behind it.
fn part_of(random: &mut Random, sessions: &[Lines]) -> Lines {
    let session = &sessions[random.below(sessions.len() as u64) as usize];
    let longest = if random.percent(2) {
        session.len()
    } else {
        random.below(SHORT) as usize
    };
    let part = &session[..longest.min(session.len())];
    let ends = |line: &String| word_of(line) == "result" || SMALL.contains(&word_of(line));
    let end = part.iter().rposition(ends);
    part[..end.map_or(0, |end| end + 1)].to_vec()
}

fn damage(random: &mut Random, lines: &mut Lines) {
    let mut chance = random.below(DAMAGES.iter().map(|(often, _)| often).sum());
    for (often, damage) in DAMAGES {
        if chance < often {
            return damage(random, lines);
        }
        chance -= often;
    }
}

fn word_of(line: &str) -> &str {
    line.split('\t').next().unwrap_or_default()
}

/// `None` where a line is malformed already.
fn numbers_of(line: &str) -> Option<[u64; 3]> {
    let numbers = line.trim_end().split('\t').skip(1).map(str::parse);
    let numbers: Vec<u64> = numbers.collect::<Result<_, _>>().ok()?;
    numbers.try_into().ok()
}

fn is_call(line: &str) -> bool {
    matches!(word_of(line), "open" | "malloc" | "free" | "close")
}

fn any_place(random: &mut Random, lines: &Lines) -> Option<usize> {
    let end = lines.len() as u64;
    (end > 0).then(|| random.below(end) as usize)
}

/// A word of those there, then a line of that word: rare words are met as often as others.
fn place_by_word(random: &mut Random, lines: &Lines, words: &[&str]) -> Option<usize> {
    let there: Vec<&str> = (words.iter().copied())
        .filter(|word| lines.iter().any(|line| word_of(line) == *word))
        .collect();
    if there.is_empty() {
        return None;
    }
    let word = random.pick(&there);
    let places: Vec<usize> = (0..lines.len())
        .filter(|place| word_of(&lines[*place]) == word)
        .collect();
    Some(random.pick(&places))
}

fn any_number(random: &mut Random, lines: &Lines) -> u64 {
    let numbers = any_place(random, lines).and_then(|place| numbers_of(&lines[place]));
    numbers.map_or(0, |numbers| random.pick(&numbers))
}

fn other_number(random: &mut Random, lines: &Lines, old: u64) -> u64 {
    let page_size = (lines.first())
        .and_then(|line| numbers_of(line))
        .map_or(1, |[page_size, ..]| page_size);
    let other = any_number(random, lines);
    random.pick(&[
        old.wrapping_add(1),
        old.wrapping_sub(1),
        old.wrapping_add(page_size),
        old.wrapping_sub(page_size),
        old.wrapping_mul(2),
        old.wrapping_neg(),
        other,
        other,
        other,
        other.wrapping_neg(),
        0,
        1,
        u64::MAX,
        1 << 63,
    ])
}

fn set(lines: &mut Lines, place: usize, at: usize, number: u64) {
    if let Some(mut numbers) = numbers_of(&lines[place]) {
        numbers[at] = number;
        let [first, second, third] = numbers;
        lines[place] = line(word_of(&lines[place]), first, second, third);
    }
}

fn change_a_number(random: &mut Random, lines: &mut Lines) {
    let Some(place) = place_by_word(random, lines, &WORDS) else {
        return;
    };
    let at = random.below(2) as usize;
    let old = numbers_of(&lines[place]).map_or(0, |numbers| numbers[at]);
    let new = other_number(random, lines, old);
    set(lines, place, at, new);
}

/// A size, address, handle or event that is another from the first line to the last.
fn change_a_number_everywhere(random: &mut Random, lines: &mut Lines) {
    let place = place_by_word(random, lines, &WORDS);
    let Some(numbers) = place.and_then(|place| numbers_of(&lines[place])) else {
        return;
    };
    let old = numbers[random.below(2) as usize];
    let new = other_number(random, lines, old);
    for place in 0..lines.len() {
        for at in 0..2 {
            if numbers_of(&lines[place]).is_some_and(|numbers| numbers[at] == old) {
                set(lines, place, at, new);
            }
        }
    }
}

fn change_a_code(random: &mut Random, lines: &mut Lines) {
    let Some(place) = place_by_word(random, lines, &WORDS[5..]) else {
        return;
    };
    let failed = numbers_of(&lines[place]).is_some_and(|[_, _, code]| code > 0);
    let code = if failed {
        0
    } else {
        random.pick(&[1, 2, 700, u64::MAX])
    };
    set(lines, place, 2, code);
}

fn change_a_result(random: &mut Random, lines: &mut Lines) {
    let Some(place) = place_by_word(random, lines, &["result"]) else {
        return;
    };
    let at = random.below(3) as usize;
    let old = numbers_of(&lines[place]).map_or(0, |numbers| numbers[at]);
    let new = match at {
        2 if old > 0 => 0,
        2 => random.pick(&[1, 2, 13, 14, 17]),
        _ => other_number(random, lines, old),
    };
    set(lines, place, at, new);
}

fn drop_a_line(random: &mut Random, lines: &mut Lines) {
    if let Some(place) = place_by_word(random, lines, &WORDS) {
        lines.remove(place);
    }
}

fn double_a_line(random: &mut Random, lines: &mut Lines) {
    if let Some(place) = place_by_word(random, lines, &WORDS) {
        lines.insert(place, lines[place].clone());
    }
}

fn swap_two_lines(random: &mut Random, lines: &mut Lines) {
    if let Some(place) = any_place(random, lines) {
        let next = (place + 1).min(lines.len() - 1);
        lines.swap(place, next);
    }
}

/// Up to twenty lines away.
fn move_a_line(random: &mut Random, lines: &mut Lines) {
    let Some(place) = place_by_word(random, lines, &WORDS) else {
        return;
    };
    let line = lines.remove(place);
    let to = (place + random.below(41) as usize).saturating_sub(20);
    lines.insert(to.min(lines.len()), line);
}

fn change_a_word(random: &mut Random, lines: &mut Lines) {
    let Some(place) = place_by_word(random, lines, &WORDS) else {
        return;
    };
    let word = random.pick(&WORDS);
    if let Some([first, second, third]) = numbers_of(&lines[place]) {
        lines[place] = line(word, first, second, third);
    }
}

/// A driver line with numbers met elsewhere, mostly of such a line, in the midst of a call.
fn insert_a_line(random: &mut Random, lines: &mut Lines) {
    let Some(place) = any_place(random, lines) else {
        return;
    };
    let word = random.pick(RECORDS);
    let mut numbers = place_by_word(random, lines, &[word])
        .and_then(|place| numbers_of(&lines[place]))
        .unwrap_or([any_number(random, lines), any_number(random, lines), 0]);
    if random.percent(40) {
        let at = random.below(2) as usize;
        numbers[at] = other_number(random, lines, numbers[at]);
    }
    let [first, second, _] = numbers;
    let code = random.pick(&[0, 0, 0, 0, 0, 0, 0, 0, 0, 1]);
    let after = if word_of(&lines[place]) == "result" && random.percent(95) {
        place
    } else {
        place + 1
    };
    lines.insert(after, line(word, first, second, code));
}

/// Lines of small buffers, mostly between calls, where any number of them may stand.
fn insert_small(random: &mut Random, lines: &mut Lines) {
    let between = random.percent(80);
    let place = if between {
        place_by_word(random, lines, &["result"])
    } else {
        any_place(random, lines)
    };
    let Some(place) = place else {
        return;
    };
    let at = if !between && random.percent(10) {
        0
    } else {
        place + 1
    };
    for _ in 0..1 + random.below(3) {
        let numbers = [0; 3].map(|_| any_number(random, lines));
        let [first, second, other] = numbers;
        let code = random.pick(&[0, 0, 0, 2, other]);
        lines.insert(at, line(random.pick(SMALL), first, second, code));
    }
}

fn malform_a_line(random: &mut Random, lines: &mut Lines) {
    let Some(place) = any_place(random, lines) else {
        return;
    };
    let old = lines[place].trim_end().to_string();
    let tabs: Vec<usize> = old.match_indices('\t').map(|(at, _)| at).collect();
    if tabs.is_empty() {
        return;
    }
    let tab = random.pick(&tabs);
    let (before, after) = old.split_at(tab);
    let after = &after[1..];
    let new = match random.below(19) {
        0 => format!("{before}\t0{after}"),
        1 => format!("{old}\r"),
        2 => format!("{before} {after}"),
        3 => String::new(),
        4 => format!("\n{old}"),
        5 => format!("{old}\t"),
        6 => format!("{old}\t0"),
        7 => before.to_string(),
        8 => format!("{before}\t\t{after}"),
        9 => format!("{before}\t+{after}"),
        10 => format!("{before}\t-{after}"),
        11 => format!("{before}\t18446744073709551616"),
        12 => format!("{before}\t99999999999999999999{after}"),
        13 => format!(" {old}"),
        14 => format!("{before}\t{after}\u{e9}"),
        15 => format!("{before}\t\0{after}"),
        16 => format!("{before}\t{}{after}", "9".repeat(5000)),
        17 => old.to_uppercase(),
        _ => format!("{before}\t0x{after}"),
    };
    lines[place] = new + "\n";
}

/// Ends the trace, at a line's end or within it.
fn cut(random: &mut Random, lines: &mut Lines) {
    let Some(place) = any_place(random, lines) else {
        return;
    };
    lines.truncate(place + 1);
    if random.percent(50) {
        let line = &mut lines[place];
        let end = random.below(line.len() as u64) as usize;
        if line.is_char_boundary(end) {
            line.truncate(end);
        }
    }
}

/// From a call line up to the next.
fn any_call(random: &mut Random, lines: &Lines) -> Option<(usize, usize)> {
    let starts: Vec<usize> = (0..lines.len())
        .filter(|place| is_call(&lines[*place]))
        .collect();
    if starts.is_empty() {
        return None;
    }
    let start = random.pick(&starts);
    let next = starts.iter().copied().find(|next| *next > start);
    Some((start, next.unwrap_or(lines.len())))
}

/// Past the next call, or before any other.
fn move_a_call(random: &mut Random, lines: &mut Lines) {
    let Some((start, end)) = any_call(random, lines) else {
        return;
    };
    let call: Lines = lines.drain(start..end).collect();
    let to = match random.below(3) {
        0 => (start..lines.len()).find(|place| *place > start && is_call(&lines[*place])),
        _ => any_call(random, lines).map(|(start, _)| start),
    };
    let to = to.unwrap_or(lines.len());
    lines.splice(to..to, call);
}

fn drop_a_call(random: &mut Random, lines: &mut Lines) {
    if let Some((start, end)) = any_call(random, lines) {
        lines.drain(start..end);
    }
}

/// A close before some call, with a first record or none, whose result may be 0 or not.
fn close_early(random: &mut Random, lines: &mut Lines) {
    let Some((start, _)) = any_call(random, lines) else {
        return;
    };
    let mut close = vec![line("close", 0, 0, 0)];
    if random.percent(70) {
        close.push(line("sync", 0, 0, random.below(2)));
    }
    let answer = random.pick(&[0, 2, 3, 4]);
    close.push(line("result", random.below(2), 0, answer));
    lines.splice(start..start, close);
}

/// Calls on a closed pool, or on one that is not.
fn go_on_after_the_end(random: &mut Random, lines: &mut Lines) {
    if random.percent(50) {
        lines.push(line("close", 0, 0, 0));
        lines.push(line("result", 0, 0, 0));
    }
    for _ in 0..1 + random.below(3) {
        if random.percent(15) {
            lines.push(line(random.pick(SMALL), any_number(random, lines), 1, 0));
        }
        let word = random.pick(&["malloc", "free", "close", "malloc", "open"]);
        lines.push(line(word, any_number(random, lines), 1, 0));
        if random.percent(15) {
            let code = random.below(2);
            lines.push(line(random.pick(RECORDS), 0, 0, code));
        }
        let answer = random.pick(&[1, 1, 1, 1, 1, 0]);
        let first = random.pick(&[0, 0, 0, 0, 0, 1]);
        lines.push(line("result", first, 0, answer));
    }
}
