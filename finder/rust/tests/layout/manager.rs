//! The manager's own words, and the pool among them.

use std::mem::offset_of;

use caldarimpu::ffi::{
    self, state, LiveBuffer, Manager, ManagerReply, Page, SmallBuffer, Table, LOG,
    MANAGER_REPLY_WORDS, MANAGER_WORDS, POOL_WORDS, ROOTS, SMALLS,
};

use crate::{add_pages, opened, places, ANSWERS};

const SMALL: usize =
    (offset_of!(Manager, small) + offset_of!(Table<SmallBuffer, SMALLS>, cells)) / 8;
const STRIDE: usize = size_of::<SmallBuffer>() / 8;
const FIELDS: [(&str, usize); 3] = [
    ("pointer", offset_of!(SmallBuffer, pointer) / 8),
    ("size", offset_of!(SmallBuffer, size) / 8),
    ("stream", offset_of!(SmallBuffer, stream) / 8),
];
const PLAIN: [(&str, usize); 8] = [
    (
        "small.count",
        (offset_of!(Manager, small) + offset_of!(Table<SmallBuffer, SMALLS>, count)) / 8,
    ),
    ("current", offset_of!(Manager, current) / 8),
    ("highest", offset_of!(Manager, highest) / 8),
    ("answer", offset_of!(ManagerReply, answer) / 8),
    ("first", offset_of!(ManagerReply, first) / 8),
    ("second", offset_of!(ManagerReply, second) / 8),
    ("records", offset_of!(ManagerReply, records) / 8),
    ("taken", offset_of!(ManagerReply, taken) / 8),
];

/// The field at a word of a reply, or of the manager at its front.
fn name(word: usize) -> String {
    if word < POOL_WORDS {
        return format!("pool.{}", places::name(word));
    }
    if let Some((name, _)) = PLAIN.iter().find(|(_, at)| *at == word) {
        return name.to_string();
    }
    let inside = word - SMALL;
    let (cell, rest) = (inside / STRIDE, inside % STRIDE);
    let field = FIELDS.iter().find(|(_, at)| *at == rest);
    match field {
        Some((name, _)) if cell < SMALLS => format!("small.cells[{cell}].{name}"),
        _ => format!("word {word}"),
    }
}

/// A manager that the library left, word by word.
#[track_caller]
fn leaves(wanted: &Manager, left: &Manager) {
    for (word, (wanted, left)) in wanted.words().iter().zip(left.words()).enumerate() {
        let name = name(word);
        assert_eq!(
            left, wanted,
            "{name} is at word {word} here, and the library left there"
        );
    }
}

#[track_caller]
fn wrote(reply: &ManagerReply, field: &str, number: u64) {
    let word = PLAIN.iter().find(|(name, _)| *name == field);
    let word = word.expect("a field of the reply").1;
    let wrote = reply.words()[word];
    assert_eq!(wrote, number, "{field} is at word {word} of the reply here");
}

fn log() -> Vec<u64> {
    vec![0; 4 * LOG]
}

#[test]
fn every_word_has_a_name_of_its_own() {
    let names: std::collections::BTreeSet<String> = (0..MANAGER_REPLY_WORDS).map(name).collect();
    assert_eq!(names.len(), MANAGER_REPLY_WORDS);
    assert!(
        !names.iter().any(|name| name.contains("word ")),
        "{names:?}"
    );
}

/// Of a stopped manager only the counts are tested, and its close names the small buffers first.
#[test]
fn a_close_reads_small_buffers_and_the_pool() {
    let mut words: [u64; MANAGER_WORDS] = std::array::from_fn(places::mark);
    for shape in &places::SHAPES {
        words[shape.count] = 0;
    }
    let mut manager = Manager::from_words(words);
    manager.pool.state = state::STOPPED;
    (manager.pool.pages.count, manager.pool.roots.count) = (1, ROOTS);
    manager.small.count = SMALLS;
    let mut log = log();
    let reply = ffi::manager::close(&manager, &ANSWERS, &mut log);
    let record = |at: usize| [0, 1, 2, 3].map(|cell| log[4 * at + cell]);
    wrote(&reply, "answer", 0);
    wrote(&reply, "records", (SMALLS + 3 + ROOTS) as u64);
    wrote(&reply, "taken", (SMALLS + 3 + ROOTS) as u64);
    for (cell, held) in manager.small.entries().iter().enumerate() {
        let wanted = [18, held.pointer, held.size, 0];
        assert_eq!(record(cell), wanted, "small.cells[{cell}]");
    }
    let Page { start, handle } = manager.pool.pages.cells[0];
    assert_eq!(record(SMALLS), [10, 0, 0, 0], "small.count");
    let unmap = [5, start, manager.pool.page, 0];
    assert_eq!(record(SMALLS + 1), unmap, "pool.pages, pool.page");
    assert_eq!(record(SMALLS + 2)[..2], [6, handle], "pool.pages");
    for (cell, base) in manager.pool.roots.entries().iter().enumerate() {
        let giveback = [11, *base, manager.pool.va, 0];
        assert_eq!(record(SMALLS + 3 + cell), giveback, "pool.roots, pool.va");
    }
    leaves(&Manager::closed(), &reply.manager);

    let short = ffi::manager::close(&manager, &ANSWERS[..2 * (SMALLS + 1)], &mut log);
    wrote(&short, "answer", 17);
    wrote(&short, "records", SMALLS as u64 + 2);
    wrote(&short, "taken", SMALLS as u64 + 1);
    leaves(&manager, &short.manager);

    manager.small.count = SMALLS + 1;
    let refused = ffi::manager::close(&manager, &ANSWERS, &mut log);
    wrote(&refused, "answer", 3);
}

/// One after the other, and each freed in turn from all of them.
#[test]
fn small_buffers_are_written_and_read() {
    let mut manager = Manager::closed();
    manager.pool = opened();
    let (page, va) = (manager.pool.page, manager.pool.va);
    let mut log = log();
    for cell in 0..SMALLS {
        let held = SmallBuffer {
            pointer: 1 + va * (100 + cell as u64),
            size: 1 + cell as u64 % (page - 1),
            stream: places::mark(SMALL + STRIDE * cell + 2),
        };
        let answers = [0, held.pointer];
        let reply = ffi::manager::malloc(&manager, held.size, held.stream, &answers, &mut log);
        wrote(&reply, "answer", 0);
        wrote(&reply, "first", held.pointer);
        wrote(&reply, "second", held.size);
        manager.small.cells[cell] = held;
        manager.small.count += 1;
        manager.current += held.size;
        manager.highest = manager.current;
        leaves(&manager, &reply.manager);
    }
    wrote(
        &ffi::manager::malloc(&manager, 1, 1, &ANSWERS, &mut log),
        "answer",
        20,
    );
    manager.highest += 1_000;
    for cell in 0..SMALLS {
        let held = manager.small.cells[cell];
        let reply = ffi::manager::free(&manager, held.pointer, &ANSWERS, &mut log);
        wrote(&reply, "answer", 0);
        wrote(&reply, "first", held.size);
        wrote(&reply, "second", held.stream);
        assert_eq!(log[..4], [18, held.pointer, held.size, 0]);
        let mut after = manager;
        after.small.cells[cell..].rotate_left(1);
        after.small.cells[SMALLS - 1] = SmallBuffer::default();
        after.small.count -= 1;
        after.current -= held.size;
        leaves(&after, &reply.manager);
    }
    // The log's length lies behind the manager where arguments are on the stack.
    let cut = ffi::manager::malloc(&manager, 1, 1, &ANSWERS, &mut log[..4 * LOG - 1]);
    wrote(&cut, "answer", 4);
    let mut reset = manager;
    reset.highest = reset.current;
    leaves(&reset, &ffi::manager::reset_highest(&manager));
}

/// Current and highest are read: what is held must add up.
#[test]
fn the_bytes_held_are_read_and_written() {
    let mut manager = Manager::closed();
    manager.pool = opened();
    let (start, page) = (manager.pool.va, manager.pool.page);
    add_pages(&mut manager.pool, start, 2 * page);
    let (size, stream) = (2 * page, 9);
    manager.pool.live.cells[0] = LiveBuffer {
        start,
        size,
        stream,
    };
    manager.pool.live.count = 1;
    (manager.current, manager.highest) = (size, size + 7);
    let mut log = log();
    let reply = ffi::manager::free(&manager, start, &ANSWERS, &mut log);
    wrote(&reply, "answer", 0);
    let left = &reply.manager;
    assert_eq!((left.current, left.highest), (0, size + 7));
    for (current, highest, answer) in [
        (size, size, 0),
        (size - 1, size, 3),
        (size + 1, size + 1, 3),
        (size, size - 1, 3),
    ] {
        (manager.current, manager.highest) = (current, highest);
        let reply = ffi::manager::free(&manager, start, &ANSWERS, &mut log);
        assert_eq!(reply.answer, answer, "{current}, {highest} of {size}");
    }
}

#[test]
fn an_opening() {
    let mut log = log();
    let reply = ffi::manager::open(4, 8, 40, 0, 3, &[0, 1000], &mut log);
    let mut wanted = Manager::closed();
    wanted.pool = ffi::open(4, 8, 40, 0, 3, &[0, 1000], &mut log).pool;
    assert_eq!((reply.answer, reply.first, reply.second), (0, 1000, 8));
    leaves(&wanted, &reply.manager);
}
