//! Fit: which free region was handed over, and how.

use original::tables::Free;

use super::{malloc::Malloc, Found, Rule};

pub fn rules(malloc: &Malloc, found: &mut Found) {
    let asked = malloc.fit.len();
    found.when(asked > 1, Rule::FitSeveralAsked);
    if !malloc.is_fit() {
        return found.when(asked > 0, Rule::FitNoneComplete);
    }
    let address = malloc.result.first;
    let region = (malloc.before.free.iter())
        .find(|free| free.range.address == address)
        .expect("a fit hands over a region's start");
    let (kind, tie) = if region.stream == malloc.stream {
        (Rule::FitSame, Rule::FitSameTie)
    } else {
        (Rule::FitAsking, Rule::FitAskingTie)
    };
    found.push(kind);
    found.when(ties(malloc, region), tie);
    let split = region.range.size > malloc.bytes;
    found.push(if split {
        Rule::FitSplit
    } else {
        Rule::FitExact
    });
    found.when(split && asked > 0, Rule::FitTailTakenOver);
    found.when(malloc.bytes > malloc.config.va_size, Rule::FitAboveVaSize);
}

/// Another region of this size could have been chosen: on the same stream, or found complete.
fn ties(malloc: &Malloc, chosen: &Free) -> bool {
    let could_be = |free: &Free| {
        let complete = || {
            malloc
                .fit
                .iter()
                .any(|asked| asked.first == free.id && asked.second == 1)
        };
        free.stream == malloc.stream || complete()
    };
    (malloc.before.free.iter())
        .filter(|free| free.range.size == chosen.range.size && could_be(free))
        .count()
        > 1
}
