//! Which of the rules (docs/RULES.md) a call showed, told from its lines and the tables around it.

mod cleanup;
mod fit;
mod insert;
mod list;
mod malloc;
mod pull;
mod room;

use original::driver::{Record, Word};

use crate::{bounds::ADDRESSES_END, replay::Step, session::Call};
use list::Found;
pub use list::Rule;

/// The rules that a call showed, one entry for each time.
pub fn rules_of(step: &Step) -> Vec<Rule> {
    let mut found = Found::default();
    match step.call {
        Call::Open { initial_pages, .. } => found.when(initial_pages > 0, Rule::InitialPages),
        Call::Malloc { bytes, stream } => malloc_rules(step, bytes, stream, &mut found),
        Call::Free { address } => free_rules(step, address, &mut found),
        Call::Close => close_rules(step, &mut found),
    }
    driver_rules(step, &mut found);
    found.into_rules()
}

fn malloc_rules(step: &Step, bytes: u64, stream: u64, found: &mut Found) {
    let malloc = malloc::Malloc::new(step, bytes, stream, found);
    fit::rules(&malloc, found);
    room::rules(&malloc, found);
}

fn free_rules(step: &Step, address: u64, found: &mut Found) {
    let (Some(before), Some(after)) = (&step.before, &step.after) else {
        return;
    };
    let freed = before
        .live
        .iter()
        .find(|live| live.range.address == address);
    let region = after.free.iter().find(|free| free.range.holds(address));
    if let (Some(freed), Some(region)) = (freed, region) {
        insert::free(freed.range, region.range, &after.roots, found);
    }
}

fn close_rules(step: &Step, found: &mut Found) {
    let Some(before) = &step.before else {
        return;
    };
    found.when(!before.zombies.is_empty(), Rule::CloseWithZombies);
    found.when(!before.live.is_empty(), Rule::CloseWithLive);
    found.when(before.roots.len() > 1, Rule::CloseSeveralRoots);
}

fn driver_rules(step: &Step, found: &mut Found) {
    for record in &step.outcome.records {
        let Record {
            word,
            first,
            second,
            code,
        } = *record;
        let done = code == 0;
        found.when(word == Word::Asked && !done, Rule::AskedFailed);
        found.when(word == Word::Create && done && first == 0, Rule::HandleZero);
        let reserved = word == Word::Reserve && done;
        found.when(
            reserved && first + second == ADDRESSES_END,
            Rule::RootEndsAddresses,
        );
    }
}
