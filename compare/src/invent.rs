//! Traces of a small world, each line at random, that keep all rules up to a line that breaks one.
//! The judge itself chooses which lines to keep: they go where the pool never does.

use crate::{
    bounds::ADDRESSES_END,
    judge::{Fault, Judge, Verdict},
    random::Random,
    text::line,
};

const RECORDS: [&str; 11] = [
    "reserve", "create", "map", "access", "unmap", "release", "record", "asked", "wait", "sync",
    "giveback",
];
const CALLS: [&str; 8] = [
    "malloc", "malloc", "malloc", "malloc", "free", "free", "free", "close",
];
const SMALL: [&str; 2] = ["small", "dropsmall"];
const PAGES: u64 = 20;
const HANDLES: u64 = 7;
const STREAMS: u64 = 3;
const PATIENCE: usize = 400;

struct World {
    page_size: u64,
    va_size: u64,
    /// The lowest of `PAGES` addresses.
    low: u64,
    judge: Judge,
    lines: Vec<String>,
    /// The call that waits for its result, and its first two numbers.
    call: Option<(&'static str, u64, u64)>,
    last_event: u64,
}

/// Half of them end at a line that breaks a rule.
pub fn invented(random: &mut Random) -> Vec<String> {
    let mut world = World::new(random);
    let length = 5 + random.below(120);
    for _ in 0..length {
        world.go_on(random);
    }
    if random.percent(50) {
        world.break_a_rule(random);
    } else if random.percent(90) {
        while world.call.is_some() {
            world.keep(random, "result");
        }
    }
    world.lines
}

impl World {
    fn new(random: &mut Random) -> Self {
        let page_size = random.pick(&[1, 2, 3, 4, 4096, 1 << 58]);
        let mut va_size = page_size * (1 + random.below(6));
        if random.percent(6) {
            // No reservation can be had.
            va_size = random.pick(&[0, 0, page_size + 1, 3 << 62, u64::MAX]);
        }
        let end = ADDRESSES_END / page_size * page_size;
        let low = if random.percent(20) {
            end - PAGES * page_size
        } else {
            random.pick(&[0, 1, 5]) * page_size
        };
        let mut world = Self {
            page_size,
            va_size,
            low,
            judge: Judge::new(),
            lines: Vec::new(),
            call: None,
            last_event: random.pick(&[0, 0, 3, 1 << 63, u64::MAX - 9]),
        };
        let opening = line("open", page_size, va_size, random.below(3));
        world.judge.read(opening.trim_end().as_bytes()).ok();
        world.lines.push(opening);
        world.call = Some(("open", page_size, va_size));
        world
    }

    /// One line that keeps the rules, if one is found.
    fn go_on(&mut self, random: &mut Random) {
        for _ in 0..PATIENCE {
            let word = match self.call {
                None if random.percent(10) => random.pick(&SMALL),
                None => random.pick(&CALLS),
                Some(_) if random.percent(15) => "result",
                Some(_) => random.pick(&RECORDS),
            };
            if self.keep(random, word) {
                return;
            }
        }
    }

    /// Adds a line of this word if it keeps the rules.
    fn keep(&mut self, random: &mut Random, word: &'static str) -> bool {
        let numbers = self.numbers(random, word);
        let (text, tried) = self.tried(word, numbers);
        let Ok(judge) = tried else {
            return false;
        };
        self.judge = judge;
        self.lines.push(text);
        let [first, second, third] = numbers;
        match word {
            "result" => self.call = None,
            "record" if third == 0 => self.last_event = first,
            _ if CALLS.contains(&word) => self.call = Some((word, first, second)),
            _ => {}
        }
        true
    }

    fn tried(&self, word: &str, numbers: [u64; 3]) -> (String, Result<Judge, Verdict>) {
        let text = line(word, numbers[0], numbers[1], numbers[2]);
        let mut judge = self.judge.clone();
        let read = judge.read(text.trim_end().as_bytes());
        (text, read.map(|()| judge))
    }

    /// Mostly another rule than R0, which most lines out of place break.
    fn break_a_rule(&mut self, random: &mut Random) {
        let any = random.percent(15);
        let result = random.percent(25);
        for _ in 0..PATIENCE {
            let word = match random.below(4) {
                _ if result => "result",
                0 => random.pick(&CALLS),
                1 => random.pick(&["result", "open", "small", "dropsmall"]),
                _ => random.pick(&RECORDS),
            };
            let numbers = self.numbers(random, word);
            let (text, tried) = self.tried(word, numbers);
            let Err(Verdict::Ended { fault, .. }) = tried else {
                continue;
            };
            if any || fault != Fault::Rule(0) {
                self.lines.push(text);
                return;
            }
        }
    }

    fn numbers(&self, random: &mut Random, word: &str) -> [u64; 3] {
        let mut numbers = self.usual_numbers(random, word);
        if random.percent(3) {
            let place = random.below(3) as usize;
            let old = numbers[place];
            let strange = [0, u64::MAX, 1 << 63, old ^ 1, old.wrapping_neg()];
            numbers[place] = random.pick(&strange);
        }
        numbers
    }

    fn usual_numbers(&self, random: &mut Random, word: &str) -> [u64; 3] {
        let address = self.low + random.below(PAGES) * self.page_size;
        let bytes = self.page_size * (1 + random.below(3));
        let handle = random.below(HANDLES).wrapping_sub(2);
        let stream = random.below(STREAMS);
        let event = self
            .last_event
            .wrapping_add(random.below(3))
            .wrapping_sub(1);
        let code = random.pick(&[0, 0, 0, 0, 0, 0, 0, 0, 0, 0, 1, 2]);
        match word {
            "open" => [self.page_size, self.va_size, 0],
            "malloc" => [bytes, stream, 0],
            "free" => [address, 0, 0],
            "close" => [0, 0, 0],
            "result" => self.result_numbers(random, address, bytes, stream),
            "reserve" | "giveback" => [address, self.va_size, code],
            "create" => [handle, self.page_size, code],
            "map" => [address, handle, code],
            "access" | "unmap" | "small" | "dropsmall" => [address, bytes, code],
            "release" => [handle, 0, code],
            "record" | "wait" => [event, stream, code],
            "asked" => [event, random.below(2), code],
            _ => [stream, 0, code],
        }
    }

    fn result_numbers(
        &self,
        random: &mut Random,
        address: u64,
        bytes: u64,
        stream: u64,
    ) -> [u64; 3] {
        if random.percent(10) {
            return [0, 0, random.pick(&[0, 1, 2, 14])];
        }
        match self.call {
            Some(("malloc", asked, _)) => [address, asked, 0],
            Some(("free", ..)) => [bytes, stream, 0],
            // One close in three ends the pool.
            Some(("close", ..)) => [0, 0, random.below(3)],
            _ => [address, self.page_size, random.pick(&[0, 0, 12])],
        }
    }
}
