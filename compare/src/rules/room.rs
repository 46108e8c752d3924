//! Make room: the range taken, new pages, and the way back.

use original::{
    driver::{Record, Word},
    tables::Range,
};

use super::{insert, malloc::Malloc, pull, Found, Rule};

pub fn rules(malloc: &Malloc, found: &mut Found) {
    let a_hole_would_do = malloc.holes.iter().any(|hole| hole.size >= malloc.bytes);
    found.when(
        malloc.result.answer == 8 && a_hole_would_do,
        Rule::RefusedThoughHole,
    );
    if malloc.room.is_empty() || malloc.result.answer == 12 {
        return;
    }
    found.push(match malloc.missing {
        0 => Rule::MissingNone,
        all if all == malloc.bytes => Rule::MissingAll,
        _ => Rule::MissingSome,
    });
    let mut holes = malloc.holes.clone();
    let taken = taken(malloc, &mut holes, found);
    match malloc.result.answer {
        0 => pull::rules(malloc, taken.expect("room was made somewhere"), found),
        13 => rollback(malloc, taken, holes, found),
        _ => failure(malloc, found),
    }
}

/// Where the range was taken: the new root, or the hole under the first map. Nothing tells where a
/// hole gave way to a creation that failed at once.
fn taken(malloc: &Malloc, holes: &mut Vec<Range>, found: &mut Found) -> Option<u64> {
    let reserved = malloc
        .room
        .iter()
        .find(|record| record.word == Word::Reserve);
    if let Some(reserve) = reserved {
        new_root(malloc, reserve.first, holes, found);
        return Some(reserve.first);
    }
    let mapped = malloc.room.iter().find(|record| record.word == Word::Map)?;
    let at = (holes.iter()).position(|hole| hole.address == mapped.first);
    let hole = holes.remove(at.expect("a hole's low part is used"));
    let ties = holes.iter().any(|other| other.size == hole.size);
    found.when(ties, Rule::HoleTakenTie);
    if hole.size == malloc.bytes {
        found.push(Rule::HoleTakenExact);
    } else {
        found.push(Rule::HoleTakenSplit);
        holes.push(Range::new(
            hole.address + malloc.bytes,
            hole.size - malloc.bytes,
        ));
    }
    Some(hole.address)
}

fn new_root(malloc: &Malloc, base: u64, holes: &mut Vec<Range>, found: &mut Found) {
    let va_size = malloc.config.va_size;
    found.push(Rule::RootNew);
    for root in &malloc.before.roots {
        found.when(root + va_size == base, Rule::RootAbove);
        found.when(base + va_size == *root, Rule::RootBelow);
    }
    if malloc.bytes == va_size {
        return found.push(Rule::RootWhole);
    }
    let rest = Range::new(base + malloc.bytes, va_size - malloc.bytes);
    let merges = insert::hole(holes, rest, &malloc.after.roots, found);
    found.when(merges.next, Rule::RootRestMerged);
}

fn rollback(malloc: &Malloc, taken: Option<u64>, mut holes: Vec<Range>, found: &mut Found) {
    let failed = |word| (malloc.room.iter()).any(|r: &Record| r.word == word && r.code > 0);
    let made = malloc.result.second;
    found.when(made == 0, Rule::RollbackNoPage);
    found.when(made > 0, Rule::RollbackPages);
    found.when(malloc.missing < malloc.bytes, Rule::RollbackLess);
    found.when(failed(Word::Unmap), Rule::RollbackUnmapFailed);
    found.when(failed(Word::Release), Rule::RollbackReleaseFailed);
    let Some(address) = taken else {
        return;
    };
    let range = Range::new(address, malloc.bytes);
    let merges = insert::hole(&mut holes, range, &malloc.after.roots, found);
    assert_eq!(
        holes, malloc.after.holes,
        "rollback reinserts the whole range"
    );
    found.push(merges.pick([
        Rule::RollbackAlone,
        Rule::RollbackNext,
        Rule::RollbackPrevious,
        Rule::RollbackBoth,
    ]));
}

/// 14: the last record is the one that failed. A page is new where its handle was created here.
fn failure(malloc: &Malloc, found: &mut Found) {
    let last = malloc.room.last().expect("a failing record");
    let created = |handle| {
        let made_here = |r: &&Record| r.word == Word::Create && r.code == 0;
        (malloc.room.iter().filter(made_here)).any(|create| create.first == handle)
    };
    let mut maps = malloc.room.iter().filter(|r| r.word == Word::Map);
    let moves = maps.any(|map| !created(map.second));
    found.push(match last.word {
        Word::Create => Rule::FailedCreate,
        Word::Map if moves => Rule::FailedMove,
        Word::Map => Rule::FailedMap,
        Word::Access if moves => Rule::FailedMoved,
        Word::Access => Rule::FailedAccess,
        Word::Wait => Rule::FailedWait,
        other => panic!("14 at {other:?}"),
    });
}
