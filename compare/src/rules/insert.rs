//! Insert free and insert hole: what a range merged with.

use original::tables::Range;

use super::{Found, Rule};
use crate::bounds::joined;

/// Sides on which a range merged.
#[derive(Clone, Copy)]
pub struct Merges {
    pub previous: bool,
    pub next: bool,
}

impl Merges {
    /// One of four rules: no merge, next, previous, both.
    pub fn pick(self, rules: [Rule; 4]) -> Rule {
        rules[self.next as usize + 2 * self.previous as usize]
    }

    fn across_roots(self, range: Range, roots: &[u64]) -> bool {
        self.previous && roots.contains(&range.address) || self.next && roots.contains(&range.end())
    }
}

/// `range` was inserted as free and stands in `region` now.
pub fn free(range: Range, region: Range, roots: &[u64], found: &mut Found) {
    let merges = Merges {
        previous: region.address < range.address,
        next: region.end() > range.end(),
    };
    let names = [
        Rule::FreeAlone,
        Rule::FreeNext,
        Rule::FreePrevious,
        Rule::FreeBoth,
    ];
    found.push(merges.pick(names));
    found.when(merges.across_roots(range, roots), Rule::FreeAcrossRoots);
}

/// Inserts `range` as a hole.
pub fn hole(holes: &mut Vec<Range>, range: Range, roots: &[u64], found: &mut Found) -> Merges {
    let merges = Merges {
        previous: holes.iter().any(|hole| hole.end() == range.address),
        next: holes.iter().any(|hole| hole.address == range.end()),
    };
    *holes = joined(holes.iter().copied().chain([range]));
    let names = [
        Rule::HoleAlone,
        Rule::HoleNext,
        Rule::HolePrevious,
        Rule::HoleBoth,
    ];
    found.push(merges.pick(names));
    found.when(merges.across_roots(range, roots), Rule::HoleAcrossRoots);
    merges
}
