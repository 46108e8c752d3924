//! Make room with success: what the new pages merged with, and which regions were pulled.

use original::{
    driver::Word,
    tables::{Range, Zombie},
};

use super::{insert, malloc::Malloc, Found, Rule};

/// `taken` is where the range taken begins.
pub fn rules(malloc: &Malloc, taken: u64, found: &mut Found) {
    let pulled = &malloc.after.zombies[malloc.zombies..];
    for zombie in pulled {
        one_pulled(malloc, zombie, found);
    }
    found.when(pulled.len() > 1, Rule::PullSeveral);
    if malloc.missing > 0 {
        new_pages(malloc, taken, !pulled.is_empty(), found);
    } else {
        moved_alone(malloc, taken, found);
    }
}

/// New pages can merge with a previous region only, and moved ones follow them.
fn new_pages(malloc: &Malloc, taken: u64, moved: bool, found: &mut Found) {
    let address = malloc.result.first;
    let made = Range::new(taken, malloc.missing);
    let region = Range::new(address, made.end() - address);
    insert::free(made, region, &malloc.after.roots, found);
    let dropped = address < taken;
    found.when(dropped && !moved, Rule::Dropped);
    found.when(dropped && moved, Rule::DroppedAndPulled);
    found.when(moved, Rule::MovedJoinsNew);
}

/// Nothing missing: the moved pages may merge on either side.
fn moved_alone(malloc: &Malloc, taken: u64, found: &mut Found) {
    let address = malloc.result.first;
    let tail = fresh_tail(malloc);
    let moved = Range::new(taken, malloc.bytes);
    let region = Range::new(address, malloc.bytes + tail);
    insert::free(moved, region, &malloc.after.roots, found);
    found.when(region.end() > moved.end(), Rule::MovedNext);
    found.when(address < taken, Rule::AnswerBelow);
    found.when(tail > 0, Rule::TailFresh);
}

fn one_pulled(malloc: &Malloc, zombie: &Zombie, found: &mut Found) {
    let region = (malloc.before.free.iter())
        .find(|free| free.range.address == zombie.range.address)
        .expect("a region is pulled from its start");
    let waited = (malloc.room.iter())
        .any(|record| record.word == Word::Wait && record.first == zombie.event);
    found.push(if region.stream == malloc.stream {
        Rule::PullOwn
    } else if waited {
        Rule::PullWaited
    } else {
        Rule::PullComplete
    });
    found.when(region.range.size > zombie.range.size, Rule::PullPart);
}

/// Size of a tail under the id that this call spent last.
fn fresh_tail(malloc: &Malloc) -> u64 {
    let id = malloc.after.counter - 1;
    let tail = malloc.after.free.iter().find(|free| free.id == id);
    tail.map_or(0, |free| free.range.size)
}
