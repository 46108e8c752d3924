//! The session of docs/RULES.md 9, against the figures that stand there.

mod common;

use compare::{
    replay::{replay, Step},
    rules::{
        rules_of,
        Rule::{self, *},
    },
};
use original::tables::{Range, Tables};

/// J and K, which the rules refuse by 6, have no Rust behind them.
const WITHOUT_RUST: [&str; 2] = [
    "malloc\t6\t1\t0\nresult\t6\t0\t6\n",
    "malloc\t0\t1\t0\nresult\t0\t0\t6\n",
];
const LETTERS: &str = "ABCDEFGHILMN";

fn steps() -> Vec<Step> {
    let mut text = common::recorded("a-to-n.trace");
    for call in WITHOUT_RUST {
        assert_eq!(text.matches(call).count(), 1);
        text = text.replace(call, "");
    }
    let mut steps = Vec::new();
    replay(text.as_bytes(), |step| steps.push(step.clone())).expect("the Rust follows");
    steps
}

/// The call of a letter: the opening has none.
fn call(letter: char) -> Step {
    let place = LETTERS
        .find(letter)
        .expect("a letter with the Rust behind it");
    steps().swap_remove(1 + place)
}

fn after(letter: char) -> Tables {
    call(letter).after.expect("the pool is open")
}

fn answered(letter: char) -> [u64; 3] {
    let result = call(letter).outcome.result;
    [result.first, result.second, result.answer]
}

fn ranges(pairs: &[(u64, u64)]) -> Vec<Range> {
    pairs
        .iter()
        .map(|&(address, size)| Range::new(address, size))
        .collect()
}

#[test]
fn answers() {
    assert_eq!(steps().len(), 1 + LETTERS.len());
    let wanted = [
        ('A', [1000, 8, 0]),
        ('B', [1008, 4, 0]),
        ('C', [1012, 4, 0]),
        ('D', [8, 1, 0]),
        ('E', [4, 1, 0]),
        ('F', [1016, 12, 0]),
        ('G', [4, 0, 13]),
        ('H', [44, 40, 8]),
        ('I', [1000, 0, 16]),
        ('L', [40, 8, 13]),
        ('M', [12, 1, 0]),
        ('N', [1016, 16, 0]),
    ];
    for (letter, result) in wanted {
        assert_eq!(answered(letter), result, "{letter}");
    }
}

#[test]
fn ids_of_freed_regions() {
    let id_at = |letter, address| {
        let free = after(letter).free;
        let region = free.iter().find(|free| free.range.address == address);
        region.map(|free| (free.range.size, free.id))
    };
    assert_eq!(id_at('D', 1000), Some((8, 3)));
    assert_eq!(id_at('E', 1012), Some((4, 4)));
    assert_eq!(id_at('M', 1016), Some((12, 6)));
    assert_eq!(after('N').counter, 8, "N spends id 7");
}

#[test]
fn f_moves_pages() {
    let tables = after('F');
    let handles: Vec<(u64, u64)> = tables.pages.iter().map(|p| (p.address, p.handle)).collect();
    assert_eq!(handles, [(1008, 73), (1016, 71), (1020, 72), (1024, 74)]);
    let zombies: Vec<Range> = tables.zombies.iter().map(|zombie| zombie.range).collect();
    assert_eq!(zombies, ranges(&[(1000, 8), (1012, 4)]));
    assert_eq!(tables.holes, ranges(&[(1028, 12)]));
}

#[test]
fn holes() {
    assert_eq!(after('G').holes, ranges(&[(1000, 8), (1028, 12)]));
    assert_eq!(
        after('L').holes,
        ranges(&[(1000, 8), (1012, 4), (1028, 52)])
    );
    assert_eq!(after('L').roots, [1000, 1040]);
    assert_eq!(
        after('N').holes,
        ranges(&[(1000, 8), (1012, 4), (1044, 36)])
    );
}

/// 1032 to 1043 is in no table.
#[test]
fn n_drops_an_end() {
    let tables = after('N');
    let live = tables.live.iter().map(|live| live.range);
    let kept: Vec<Range> = live.chain(tables.holes.iter().copied()).collect();
    assert!(tables.free.is_empty() && tables.zombies.is_empty());
    assert!((1032..1044).all(|address| !kept.iter().any(|range| range.holds(address))));
    assert_eq!(
        tables.pages.last().map(|p| (p.address, p.handle)),
        Some((1028, 75))
    );
}

const RULES_SHOWN: [(char, &[Rule]); 6] = [
    ('A', &[MissingAll, HoleTakenSplit, FreeAlone]),
    (
        'F',
        &[
            MissingNone,
            HoleTakenSplit,
            PullOwn,
            PullOwn,
            PullSeveral,
            FreeAlone,
        ],
    ),
    (
        'G',
        &[
            ZombieOut,
            ZombieRefilled,
            HoleAlone,
            ZombieStanding,
            MissingAll,
            RollbackNoPage,
        ],
    ),
    ('H', &[ZombieStanding]),
    (
        'L',
        &[
            ZombieOut,
            HoleAlone,
            MissingAll,
            RootNew,
            RootAbove,
            RootWhole,
            RollbackPages,
            HolePrevious,
            HoleAcrossRoots,
            RollbackPrevious,
        ],
    ),
    ('N', &[MissingSome, HoleTakenSplit, FreePrevious, Dropped]),
];

#[test]
fn rules_shown() {
    for (letter, rules) in RULES_SHOWN {
        assert_eq!(rules_of(&call(letter)), rules, "{letter}");
    }
}
