//! The words of rust_generate: what a random session is like.

use crate::bounds::Config;

/// The driver call that fails at the session's end and gives 14.
#[derive(Clone, Copy, Debug, PartialEq, Eq)]
pub enum Failure {
    None,
    Create,
    /// The map of a new page.
    Map,
    /// The access over new pages.
    Access,
    Wait,
    /// The map of a page that moves.
    Move,
    /// The access over pages that moved.
    Moved,
}

/// Chances are in percent.
#[derive(Clone, Copy, Debug)]
pub struct Words {
    pub config: Config,
    pub streams: u64,
    /// Calls that free a buffer.
    pub free: u64,
    /// Calls that free what is no buffer.
    pub bogus: u64,
    /// Mallocs of exactly va_size.
    pub whole: u64,
    /// Mallocs above va_size.
    pub above: u64,
    /// The most pages that other mallocs ask for.
    pub largest: u64,
    /// An event asked for is found complete.
    pub done: u64,
    /// Pages that the card has; creation gives code 2 beyond.
    pub memory: u64,
    /// Creations answered by code 2 all the same.
    pub oom: u64,
    /// Reservations refused.
    pub refuse: u64,
    /// Reservations that touch an earlier one.
    pub touch: u64,
    /// The first reservation ends at 2^63.
    pub high: bool,
    /// Unmaps that fail in cleanup and rollback, releases in rollback, askings.
    pub unmapfail: u64,
    pub releasefail: u64,
    pub askfail: u64,
    /// Calls of small buffers, and mallocs of a page and more that are no multiple. With either the
    /// session is the manager's, above the pool.
    pub small: u64,
    pub odd: u64,
    /// Small buffers that the driver refuses, or fails to take back.
    pub smallfail: u64,
    pub dropfail: u64,
    pub fail: Failure,
    pub close: bool,
}

pub const HELP: &str = "\
usage: rust_generate SEED CALLS [WORD=VALUE ..]
Prints a random session of CALLS calls after the opening, driven by the Rust pool.
  bias=NAME       mixed, defrag, waits, roots, drops, zombies, initial or full: sets the words below
  page=BYTES va_size=BYTES initial=PAGES    the opening
  streams=N       streams in use
  largest=PAGES   the most that an ordinary malloc asks for
  memory=PAGES    what the card has; creation gives code 2 beyond
  high=yes        the first reservation ends at 2^63, or the last multiple of a page before
  close=yes       ends by a close
  fail=CALL       goes on until create, map, access, wait, move or moved (the access after moves)
                  fails, which gives 14 and ends the session
and in percent:
  free bogus      calls that free a buffer, or what is none
  whole above     mallocs of va_size, or above it
  done            events found complete when asked for
  oom refuse      creations answered by code 2, reservations refused
  touch           reservations that touch an earlier one
  unmapfail releasefail askfail             failures that do not end a call
With one of these the session is that of the manager above the pool, whose sizes are bytes:
  small odd       calls of buffers below a page, mallocs of a page and more that are no multiple
  smallfail dropfail                        small buffers refused, or not taken back
A failed record is left out: the Rust panics there.
";

/// More streams, or pages in a malloc, than the ceilings have use for.
const LARGEST: u64 = 256;

const MIXED: Words = Words {
    config: Config {
        page_size: 4,
        va_size: 160,
        initial_pages: 0,
    },
    streams: 3,
    free: 45,
    bogus: 3,
    whole: 2,
    above: 2,
    largest: 8,
    done: 40,
    memory: 120,
    oom: 2,
    refuse: 10,
    touch: 50,
    high: false,
    unmapfail: 0,
    releasefail: 0,
    askfail: 0,
    small: 0,
    odd: 0,
    smallfail: 0,
    dropfail: 0,
    fail: Failure::None,
    close: false,
};

impl Words {
    pub fn read(arguments: &[String]) -> Result<Self, String> {
        let mut pairs = Vec::new();
        for argument in arguments {
            let pair = argument.split_once('=');
            pairs.push(pair.ok_or_else(|| format!("not a word and a value: {argument}"))?);
        }
        let bias = pairs.iter().find(|(word, _)| *word == "bias");
        let mut words = Self::biased(bias.map_or("mixed", |(_, name)| name))?;
        for (word, value) in pairs {
            words.set(word, value)?;
        }
        words.check()?;
        Ok(words)
    }

    fn biased(name: &str) -> Result<Self, String> {
        let mut words = MIXED;
        let (page_size, pages) = match name {
            "mixed" => (4, 40),
            "defrag" => (4, 64),
            "waits" => (8, 64),
            "roots" => (4, 6),
            "drops" => (16, 60),
            "zombies" => (4, 100),
            "initial" => (4, 40),
            "full" => (2 << 20, 4096),
            _ => return Err(format!("no such bias: {name}")),
        };
        words.config.page_size = page_size;
        words.config.va_size = page_size * pages;
        match name {
            "defrag" => (words.streams, words.largest, words.memory) = (2, 14, 60),
            "waits" => (words.streams, words.done, words.largest) = (6, 4, 10),
            "roots" => {
                (words.streams, words.whole, words.above) = (2, 30, 12);
                (words.touch, words.largest, words.refuse) = (95, 5, 3);
            }
            "drops" => (words.streams, words.largest, words.done) = (1, 14, 70),
            "zombies" => (words.streams, words.largest, words.done) = (5, 12, 25),
            "initial" => words.config.initial_pages = 12,
            "full" => {
                (words.streams, words.free, words.largest) = (6, 38, 3);
                (words.memory, words.whole, words.done) = (256, 0, 15);
            }
            _ => {}
        }
        Ok(words)
    }

    fn set(&mut self, word: &str, value: &str) -> Result<(), String> {
        let field = match word {
            "bias" => return Ok(()),
            "high" => return yes(value).map(|yes| self.high = yes),
            "close" => return yes(value).map(|yes| self.close = yes),
            "fail" => return failure(value).map(|failure| self.fail = failure),
            "page" => &mut self.config.page_size,
            "va_size" => &mut self.config.va_size,
            "initial" => &mut self.config.initial_pages,
            "streams" => &mut self.streams,
            "free" => &mut self.free,
            "bogus" => &mut self.bogus,
            "whole" => &mut self.whole,
            "above" => &mut self.above,
            "largest" => &mut self.largest,
            "done" => &mut self.done,
            "memory" => &mut self.memory,
            "oom" => &mut self.oom,
            "refuse" => &mut self.refuse,
            "touch" => &mut self.touch,
            "unmapfail" => &mut self.unmapfail,
            "releasefail" => &mut self.releasefail,
            "askfail" => &mut self.askfail,
            "small" => &mut self.small,
            "odd" => &mut self.odd,
            "smallfail" => &mut self.smallfail,
            "dropfail" => &mut self.dropfail,
            _ => return Err(format!("no such word: {word}")),
        };
        *field = value
            .parse()
            .map_err(|_| format!("not a number: {word}={value}"))?;
        Ok(())
    }

    fn check(&self) -> Result<(), String> {
        if !self.config.is_good() {
            return Err("the rules answer 19 to this opening".to_string());
        }
        if !(1..=LARGEST).contains(&self.streams) || !(1..=LARGEST).contains(&self.largest) {
            return Err(format!("streams and largest are from 1 to {LARGEST}"));
        }
        if self.chances().into_iter().any(|chance| chance > 100) {
            return Err("a chance is at most 100 percent".to_string());
        }
        if self.memory < self.config.initial_pages {
            return Err("memory is at least the initial pages".to_string());
        }
        if self.close && self.fail != Failure::None {
            return Err("a session that ends by a failure has no close".to_string());
        }
        Ok(())
    }

    /// The session is the manager's.
    pub fn in_bytes(&self) -> bool {
        self.small > 0 || self.odd > 0
    }

    fn chances(&self) -> [u64; 15] {
        [
            self.free,
            self.bogus,
            self.whole,
            self.above,
            self.done,
            self.oom,
            self.refuse,
            self.touch,
            self.unmapfail,
            self.releasefail,
            self.askfail,
            self.small,
            self.odd,
            self.smallfail,
            self.dropfail,
        ]
    }
}

fn yes(value: &str) -> Result<bool, String> {
    match value {
        "yes" => Ok(true),
        "no" => Ok(false),
        _ => Err(format!("neither yes nor no: {value}")),
    }
}

fn failure(value: &str) -> Result<Failure, String> {
    Ok(match value {
        "none" => Failure::None,
        "create" => Failure::Create,
        "map" => Failure::Map,
        "access" => Failure::Access,
        "wait" => Failure::Wait,
        "move" => Failure::Move,
        "moved" => Failure::Moved,
        _ => return Err(format!("no such call to fail: {value}")),
    })
}
