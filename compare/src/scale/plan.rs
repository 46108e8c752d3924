//! The random sessions of a run at scale. A session's number says all of it, so a longer run holds
//! the shorter.

use super::subject::Form;
use crate::{random::Random, words::Words};

const BIASES: [&str; 8] = [
    "mixed", "defrag", "waits", "roots", "drops", "zombies", "initial", "full",
];

const ENDINGS: [&str; 8] = [
    "close=yes",
    "close=no",
    "fail=create",
    "fail=map",
    "fail=access",
    "fail=wait",
    "fail=move",
    "fail=moved",
];

/// What goes on top of a bias: failures that end no call in all, and a turn towards some rules.
const TURNS: [&str; 8] = [
    "unmapfail=10 releasefail=10 askfail=3",
    "unmapfail=10 releasefail=10 askfail=3 high=yes",
    "unmapfail=10 releasefail=10 askfail=3 done=95 memory=16",
    "unmapfail=10 releasefail=10 askfail=1 done=95 memory=20 oom=0 whole=5 largest=4 streams=2",
    "unmapfail=20 releasefail=20 askfail=3 oom=12 refuse=25 touch=90",
    "unmapfail=10 releasefail=10 askfail=3 done=0 streams=12 largest=6",
    "unmapfail=40 releasefail=40 askfail=20",
    "unmapfail=10 releasefail=10 askfail=3 whole=20 above=15 touch=100",
];

/// Every bias with every ending and every turn.
pub const ROUND: u64 = (BIASES.len() * ENDINGS.len() * TURNS.len()) as u64;

const MOST_CALLS: u64 = 400;

/// Calls in which a failure may come up. Some biases never come to it; the session stands.
pub const PATIENCE: u64 = 200;

pub struct Planned {
    pub seed: u64,
    pub calls: u64,
    pub form: Form,
    pub words: Words,
    /// What to give to rust_generate, which waits longer for a failure.
    pub name: String,
}

impl Planned {
    pub fn new(number: u64) -> Self {
        Self::with(number, "")
    }

    /// The like for the manager above the pool: with small buffers and sizes that are no multiple.
    pub fn in_bytes(number: u64) -> Self {
        let mut random = Random::new(!number);
        let small = random.pick(&[5, 20, 40, 80]);
        let odd = random.pick(&[20, 60, 100]);
        let smallfail = random.pick(&[0, 3, 25]);
        let dropfail = random.pick(&[0, 3, 40]);
        let page = random.pick(&["", "", "", " page=3 va_size=99", " page=1 va_size=40"]);
        let end = random.pick(&["", " fail=none close=yes"]);
        let words = format!(" small={small} odd={odd} smallfail={smallfail} dropfail={dropfail}");
        Self::with(number, &(words + page + end))
    }

    /// More words come last, and so are set last.
    fn with(number: u64, more: &str) -> Self {
        let mut rest = number;
        let mut pick = |from: &[&'static str]| {
            let picked = from[(rest % from.len() as u64) as usize];
            rest /= from.len() as u64;
            picked
        };
        let (bias, ending, turn) = (pick(&BIASES), pick(&ENDINGS), pick(&TURNS));
        let words = format!("bias={bias} {ending} {turn}{more}");
        let list: Vec<String> = words.split(' ').map(str::to_string).collect();
        let seed = number + 1;
        let mut random = Random::new(seed);
        let calls = 1 + random.below(MOST_CALLS);
        let form = random.pick(&[Form::Whole, Form::Bare]);
        Self {
            seed,
            calls,
            form,
            words: Words::read(&list).expect("the words of a plan are good"),
            name: format!("{seed} {calls} {words}"),
        }
    }
}

#[cfg(test)]
mod tests {
    use std::collections::BTreeSet;

    use super::*;

    #[test]
    fn a_round_has_each_once() {
        let words = |number| {
            let name = Planned::new(number).name;
            name.splitn(3, ' ').nth(2).map(str::to_string)
        };
        let round: BTreeSet<_> = (0..ROUND).map(words).collect();
        assert_eq!(round.len() as u64, ROUND);
        assert_eq!(words(0), words(ROUND));
    }
}
