//! Random sessions by the package, of a pool and of a manager in turn, their traces printed, and
//! behind each the number of calls and of runs so far, and the bytes that a manager holds and held
//! at most before its close. finder/check/session.c prints the same by finder/pool_run.h, on the
//! same card (finder/check/whim.h): `check` compares the two, byte for byte.
//!
//!     cargo run --offline --quiet --example session SEEDS CALLS

use std::{
    env,
    io::{self, BufWriter, StdoutLock, Write},
};

use caldarimpu::{ffi, Answers, Code, Config, Happened, Manager, Pool, Record, Refusal, Word};

/// splitmix64.
fn mixed(number: u64) -> u64 {
    let mut number = number.wrapping_add(0x9e37_79b9_7f4a_7c15);
    number = (number ^ (number >> 30)).wrapping_mul(0xbf58_476d_1ce4_e5b9);
    number = (number ^ (number >> 27)).wrapping_mul(0x94d0_49bb_1331_11eb);
    number ^ (number >> 31)
}

/// A row of numbers, each below an end.
struct Choices(u64);

impl Choices {
    fn below(&mut self, end: u64) -> u64 {
        self.0 = mixed(self.0);
        self.0 % end
    }
}

/// A card of random mood, not always a credible one.
struct Whim<'a> {
    seed: u64,
    /// Of the driver calls that stop a pool where they fail, those that do, in a thousand; of the
    /// others five times as many.
    failures: u64,
    /// Events found complete, in a hundred.
    complete: u64,
    answered: u64,
    runs: u64,
    out: &'a mut BufWriter<StdoutLock<'static>>,
}

impl Whim<'_> {
    /// A create that fails is out of memory mostly.
    fn failure(&self, word: Word, choices: &mut Choices) -> Option<Code> {
        let more = match word {
            Word::Map | Word::Access | Word::Record | Word::Wait | Word::Sync => 1,
            _ => 5,
        };
        if choices.below(1000) >= more * self.failures {
            return None;
        }
        if word == Word::Create && choices.below(4) != 0 {
            return Code::new(2);
        }
        Code::new(1 + choices.below(3))
    }

    /// Bases are aligned mostly and free mostly; handles are new mostly, and some are those that
    /// are guessed; so are pointers, and some are low enough for a root.
    fn value(&self, wanted: Record, choices: &mut Choices) -> u64 {
        match wanted.word {
            Word::Reserve => {
                let base = wanted.second * (1 + choices.below(200));
                base + 4 * choices.below(3) + choices.below(100) / 99
            }
            Word::Create if choices.below(60) == 0 => (1 << 63) + choices.below(60),
            Word::Create => choices.below(50_000),
            Word::Asked if choices.below(100) < self.complete => 1,
            Word::Asked => 2 * choices.below(2),
            Word::Small if choices.below(60) == 0 => (1 << 63) + choices.below(2),
            Word::Small if choices.below(60) == 0 => choices.below(2000),
            Word::Small => 1_000_000 + 16 * choices.below(50_000),
            _ => choices.below(1000),
        }
    }
}

impl Answers for Whim<'_> {
    fn answer(&mut self, wanted: Record) -> Result<u64, Code> {
        self.answer_on(wanted, 0)
    }

    fn answer_on(&mut self, wanted: Record, stream: u64) -> Result<u64, Code> {
        let numbers = [
            self.answered,
            wanted.word.kind(),
            wanted.first,
            wanted.second,
            wanted.code,
        ];
        self.answered += 1;
        let seeded = |choices, number| mixed(choices ^ number);
        let mut choices = Choices(numbers.into_iter().fold(self.seed, seeded));
        if stream != 0 {
            choices.0 = mixed(choices.0 ^ stream);
        }
        match self.failure(wanted.word, &mut choices) {
            Some(code) => Err(code),
            None => Ok(self.value(wanted, &mut choices)),
        }
    }

    fn told(&mut self, call: &Happened) {
        write!(self.out, "{call}").expect("an output");
        self.runs += call.runs;
    }
}

/// What a session is like: pages of a reservation, most pages of a malloc, streams, frees in ten
/// calls, events found complete.
#[derive(Clone, Copy)]
struct Kind {
    root: u64,
    largest: u64,
    streams: u64,
    frees: u64,
    complete: u64,
}

#[rustfmt::skip]
const KINDS: [Kind; 4] = [
    Kind { root: 40, largest: 14, streams: 3, frees: 4, complete: 40 },
    Kind { root: 200, largest: 3, streams: 4, frees: 2, complete: 40 },
    Kind { root: 3, largest: 4, streams: 2, frees: 3, complete: 80 },
    Kind { root: 200, largest: 3, streams: 90, frees: 4, complete: 0 },
];

enum Call {
    Malloc { bytes: u64, stream: u64 },
    Free { address: u64 },
}

impl Kind {
    fn opening(&self, choices: &mut Choices) -> Config {
        let override_size = 4 * choices.below(2);
        Config {
            granularity: if override_size == 0 { 4 } else { 2 },
            override_size,
            va_size: 4 * self.root + choices.below(20) / 19,
            initial_pages: choices.below(12) / 4,
            initial_stream: 2,
        }
    }

    fn next(&self, choices: &mut Choices, pool: &ffi::Pool) -> Call {
        let live = pool.live.entries();
        if choices.below(10) < self.frees && !live.is_empty() {
            let address = live[choices.below(live.len() as u64) as usize].start;
            return Call::Free { address };
        }
        if choices.below(30) == 0 {
            let address = choices.below(2000);
            return Call::Free { address };
        }
        let free = pool.free.entries().iter();
        let pages = match choices.below(8) {
            0 => free.map(|free| free.size / 4).sum(),
            _ => 1 + choices.below(self.largest),
        };
        Call::Malloc {
            bytes: 4 * pages + choices.below(40) / 39,
            stream: choices.below(self.streams),
        }
    }

    /// Of a manager: two of three are for small buffers, and sizes lie between whole pages too.
    fn next_bytes(&self, choices: &mut Choices, manager: &ffi::Manager) -> Call {
        let small = manager.small.entries();
        if choices.below(3) == 0 {
            return match self.next(choices, &manager.pool) {
                Call::Malloc { bytes, stream } => Call::Malloc {
                    bytes: bytes + choices.below(4),
                    stream,
                },
                call => call,
            };
        }
        if choices.below(20) < self.frees && !small.is_empty() {
            let address = small[choices.below(small.len() as u64) as usize].pointer;
            return Call::Free { address };
        }
        let mut bytes = match choices.below(30) {
            0 => 0,
            _ => 1 + choices.below(3),
        };
        if choices.below(60) == 0 {
            bytes = (1 << 63) + choices.below(2);
        }
        let stream = choices.below(self.streams);
        Call::Malloc { bytes, stream }
    }

    /// Gives the number of calls.
    fn play(&self, card: &mut Whim, seed: u64, length: u64) -> u64 {
        let mut choices = Choices(!seed);
        let Ok(mut pool) = Pool::open(card, self.opening(&mut choices)) else {
            return 1;
        };
        let (mut left, mut calls) = (length, 2);
        while left > 0 {
            let refusal = match self.next(&mut choices, pool.value()) {
                Call::Malloc { bytes, stream } => pool.malloc(card, bytes, stream).err(),
                Call::Free { address } => pool.free(card, address).err(),
            };
            let stopped = refusal == Some(Refusal::PoolStopped);
            left = if stopped { left / 2 } else { left - 1 };
            calls += 1;
        }
        pool.close(card).expect("a close is always served");
        calls
    }

    /// Halfway the highest counts anew.
    fn play_bytes(&self, card: &mut Whim, seed: u64, length: u64) -> u64 {
        let mut choices = Choices(!seed);
        let Ok(mut manager) = Manager::open(card, self.opening(&mut choices)) else {
            return 1;
        };
        let (mut left, mut calls) = (length, 2);
        while left > 0 {
            if left == length / 2 {
                manager.reset_highest();
            }
            let refusal = match self.next_bytes(&mut choices, manager.value()) {
                Call::Malloc { bytes, stream } => manager.malloc(card, bytes, stream).err(),
                Call::Free { address } => manager.free(card, address).err(),
            };
            let stopped = refusal == Some(Refusal::PoolStopped);
            left = if stopped { left / 2 } else { left - 1 };
            calls += 1;
        }
        let (current, highest) = (manager.current(), manager.highest());
        let small = manager.value().small.count;
        writeln!(card.out, "bytes\t{current}\t{highest}\t{small}").expect("an output");
        manager.close(card).expect("a close is always served");
        calls
    }
}

/// A card of its own for each session.
fn card_of<'a>(seed: u64, kind: &Kind, out: &'a mut BufWriter<StdoutLock<'static>>) -> Whim<'a> {
    Whim {
        seed,
        failures: [0, 2, 30][seed as usize % 3],
        complete: kind.complete,
        answered: 0,
        runs: 0,
        out,
    }
}

fn main() {
    let numbers: Vec<u64> = (env::args().skip(1))
        .map(|argument| argument.parse().expect("a number"))
        .collect();
    let [seeds, length] = numbers[..] else {
        panic!("session SEEDS CALLS: sessions of so many calls, on seeds from 0 on");
    };
    let mut out = BufWriter::new(io::stdout().lock());
    let (mut calls, mut runs) = (0, 0);
    for seed in 0..seeds {
        let kind = KINDS[seed as usize % KINDS.len()];
        let mut card = card_of(seed, &kind, &mut out);
        calls += kind.play(&mut card, seed, length);
        runs += card.runs;
        let mut card = card_of(seed, &kind, &mut out);
        calls += kind.play_bytes(&mut card, seed, length);
        runs += card.runs;
        writeln!(out, "session\t{seed}\t{calls}\t{runs}").expect("an output");
    }
}
