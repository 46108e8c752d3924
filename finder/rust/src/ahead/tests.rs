//! Guessing ahead against the plain way: a call run on the answers known so far, the driver call
//! made that it ends with, and the call run again with one answer more. Of pools and of managers.

use std::collections::BTreeMap;

use crate::{
    driver::{make, Answer},
    ffi::{self, LOG},
    value::{Ran, Value},
    Answers, Call, Code, Config, Driver, Happened, Manager, Pool, Record, Refusal, Word,
};

/// A driver of random mood, and not always a credible one.
#[derive(Clone)]
struct Whim {
    state: u64,
    /// Driver calls that fail, in a thousand; events found complete, in a hundred.
    failures: u64,
    complete: u64,
    seen: Vec<Record>,
    /// Of small buffers.
    streams: Vec<u64>,
    told: Vec<String>,
    /// Failures that it was told ended no call.
    passed_over: usize,
    runs: u64,
}

impl Whim {
    fn new(seed: u64, failures: u64, complete: u64) -> Self {
        Self {
            state: seed,
            failures,
            complete,
            seen: Vec::new(),
            streams: Vec::new(),
            told: Vec::new(),
            passed_over: 0,
            runs: 0,
        }
    }

    /// splitmix64.
    fn below(&mut self, end: u64) -> u64 {
        self.state = self.state.wrapping_add(0x9e37_79b9_7f4a_7c15);
        let mut mixed = self.state;
        mixed = (mixed ^ (mixed >> 30)).wrapping_mul(0xbf58_476d_1ce4_e5b9);
        mixed = (mixed ^ (mixed >> 27)).wrapping_mul(0x94d0_49bb_1331_11eb);
        (mixed ^ (mixed >> 31)) % end
    }

    /// Bases are aligned mostly and free mostly; handles and pointers are new mostly, and some are
    /// those that are guessed.
    fn value(&mut self, wanted: Record) -> u64 {
        match wanted.word {
            Word::Reserve => {
                let base = wanted.second * (1 + self.below(200));
                base + 4 * self.below(3) + self.below(100) / 99
            }
            Word::Create => match self.below(40) {
                0 => (1 << 63) + self.below(12),
                _ => self.below(100_000),
            },
            Word::Small => match self.below(60) {
                0 => (1 << 63) + self.below(2),
                1 => self.below(2000),
                _ => 1_000_000 + 16 * self.below(50_000),
            },
            Word::Asked => u64::from(self.below(100) < self.complete),
            _ => 0,
        }
    }
}

impl Answers for Whim {
    fn answer(&mut self, wanted: Record) -> Result<u64, Code> {
        let fails = self.below(1000) < self.failures;
        let answer = match Code::new(1 + self.below(3)) {
            Some(code) if fails => Err(code),
            _ => Ok(self.value(wanted)),
        };
        self.seen.push(wanted.answered(Answer::of(answer)));
        answer
    }

    fn answer_on(&mut self, wanted: Record, stream: u64) -> Result<u64, Code> {
        self.streams.push(stream);
        self.answer(wanted)
    }

    fn told(&mut self, call: &Happened) {
        self.told.push(call.to_string());
        self.runs += call.runs;
    }

    fn warned(&mut self, failed: Record) {
        assert_ne!(failed.code, 0);
        self.passed_over += 1;
    }
}

/// A pool or a manager, under one face.
trait Face: Sized {
    type Of: Value + PartialEq;

    fn opened(driver: &mut dyn Driver, config: Config) -> Result<Self, Refusal>;
    /// A malloc or a free.
    fn served(&mut self, driver: &mut dyn Driver, call: Call) -> Result<(), Refusal>;
    fn closed(self, driver: &mut dyn Driver) -> Result<(), Refusal>;
    fn held(&self) -> &Self::Of;
}

macro_rules! face {
    ($kept:ident) => {
        impl Face for $kept {
            type Of = ffi::$kept;

            fn opened(driver: &mut dyn Driver, config: Config) -> Result<Self, Refusal> {
                Self::open(driver, config)
            }

            fn served(&mut self, driver: &mut dyn Driver, call: Call) -> Result<(), Refusal> {
                match call {
                    Call::Malloc { bytes, stream } => self.malloc(driver, bytes, stream).map(drop),
                    Call::Free { address } => self.free(driver, address).map(drop),
                    call => panic!("{call:?} of an open one"),
                }
            }

            fn closed(self, driver: &mut dyn Driver) -> Result<(), Refusal> {
                self.close(driver).map(drop)
            }

            fn held(&self) -> &ffi::$kept {
                self.value()
            }
        }
    };
}

face!(Pool);
face!(Manager);

/// Runs a call the plain way and gives its end and its driver calls.
fn plain<V: Value>(driver: &mut Whim, value: &V, call: Call) -> (Ran<V>, Vec<Record>) {
    let mut log = vec![0; 4 * LOG];
    let mut answers = Vec::new();
    loop {
        let reply = value.run(call, &answers, &mut log);
        let records: Vec<Record> = (log.chunks(4).take(reply.records))
            .map(|numbers| Record::of_numbers(numbers.try_into().expect("four numbers")))
            .map(|record| record.expect("a word"))
            .collect();
        if reply.answer != 17 {
            return (reply, records);
        }
        let wanted = *records.last().expect("the wanted call");
        let answer = make(driver, call, value.small(), wanted);
        answers.extend([answer.code, answer.value]);
    }
}

/// No driver panics here, so that every answer is the library's.
fn number_of(ended: Result<(), Refusal>) -> u64 {
    match ended {
        Ok(()) => 0,
        Err(refusal) => refusal.number().expect("the library's answer"),
    }
}

/// The two ways, each on a driver of its own, which begin alike.
struct Two<F: Face> {
    ahead: Whim,
    plain: Whim,
    face: Option<F>,
    value: Box<F::Of>,
    answers: BTreeMap<u64, u64>,
}

impl<F: Face> Two<F> {
    fn new(whim: Whim) -> Self {
        Self {
            ahead: whim.clone(),
            plain: whim,
            face: None,
            value: Box::new(F::Of::closed()),
            answers: BTreeMap::new(),
        }
    }

    /// Runs a call both ways and compares; gives its number.
    fn run(&mut self, call: Call) -> u64 {
        let ahead = &mut self.ahead;
        let ended = match (call, &mut self.face) {
            (Call::Open(config), place) => F::opened(ahead, config).map(|face| *place = Some(face)),
            (Call::Close, place) => {
                let face = place.take().expect("it is open");
                face.closed(ahead)
            }
            (call, Some(face)) => face.served(ahead, call),
            (call, None) => panic!("{call:?} before an opening"),
        };
        let number = number_of(ended);
        let told = self.run_plainly(call);
        assert_eq!(told, number, "{call:?}");
        *self.answers.entry(number).or_default() += 1;
        self.compare();
        number
    }

    fn run_plainly(&mut self, call: Call) -> u64 {
        let number = self.run_once(call);
        // An opening that fails closes what stands.
        let stands = self.value.pool().state != ffi::state::CLOSED;
        if matches!(call, Call::Open(_)) && number != 0 && stands {
            self.run_once(Call::Close);
        }
        number
    }

    fn run_once(&mut self, call: Call) -> u64 {
        let before = self.plain.seen.len();
        let asked = self.value.asked(call);
        let (reply, records) = plain(&mut self.plain, &*self.value, call);
        assert_eq!(self.plain.seen[before..], records);
        *self.value = reply.value;
        let happened = Happened {
            call,
            asked,
            records: &records,
            answer: reply.answer,
            first: reply.first,
            second: reply.second,
            runs: 1 + records.len() as u64,
        };
        self.plain.told(&happened);
        // One failure may be what the call answers.
        let failed = records.iter().filter(|record| record.code != 0).count();
        let answered = usize::from([12, 13, 14].contains(&reply.answer));
        self.plain.passed_over += failed - answered;
        reply.answer
    }

    fn compare(&mut self) {
        let (ahead, plain) = (&mut self.ahead, &mut self.plain);
        assert_eq!(ahead.seen, plain.seen);
        assert_eq!(ahead.streams, plain.streams);
        assert_eq!(ahead.told, plain.told);
        assert_eq!(ahead.passed_over, plain.passed_over);
        for whim in [ahead, plain] {
            whim.seen.clear();
            whim.told.clear();
        }
        if let Some(face) = &self.face {
            assert!(*face.held() == *self.value, "the values differ");
        }
    }
}

/// What a session is like: pages of a root, most pages of a malloc, streams, frees in ten calls.
struct Kind {
    root: u64,
    largest: u64,
    streams: u64,
    frees: u64,
    complete: u64,
}

#[rustfmt::skip]
const KINDS: [Kind; 4] = [
    Kind { root: 40, largest: 14, streams: 3, frees: 4, complete: 40 },
    // Up to 128 free regions and live buffers, 256 pages.
    Kind { root: 200, largest: 3, streams: 4, frees: 2, complete: 40 },
    // Up to 16 roots.
    Kind { root: 3, largest: 4, streams: 2, frees: 3, complete: 80 },
    // Up to 128 zombies.
    Kind { root: 200, largest: 3, streams: 90, frees: 4, complete: 0 },
];

impl Kind {
    /// Some are bad.
    fn opening(&self, choice: &mut Whim) -> Call {
        Call::Open(Config {
            granularity: 4,
            override_size: 4 * choice.below(2),
            va_size: 4 * self.root + choice.below(20) / 19,
            initial_pages: choice.below(12) / 4,
            initial_stream: 2,
        })
    }

    /// With no regard to whether it can be served.
    fn call(&self, choice: &mut Whim, value: &ffi::Pool) -> Call {
        let live = value.live.entries();
        if choice.below(10) < self.frees && !live.is_empty() {
            let address = live[choice.below(live.len() as u64) as usize].start;
            return Call::Free { address };
        }
        if choice.below(30) == 0 {
            let address = choice.below(2000);
            return Call::Free { address };
        }
        let free: u64 = value.free.entries().iter().map(|free| free.size).sum();
        let pages = match choice.below(8) {
            0 => free / 4,
            _ => 1 + choice.below(self.largest),
        };
        Call::Malloc {
            bytes: 4 * pages + choice.below(40) / 39,
            stream: choice.below(self.streams),
        }
    }

    /// One of a manager: two of three for small buffers, and sizes between whole pages.
    fn call_in_bytes(&self, choice: &mut Whim, value: &ffi::Manager) -> Call {
        let small = value.small.entries();
        if choice.below(3) == 0 {
            return match self.call(choice, &value.pool) {
                Call::Malloc { bytes, stream } => Call::Malloc {
                    bytes: bytes + choice.below(4),
                    stream,
                },
                call => call,
            };
        }
        if choice.below(20) < self.frees && !small.is_empty() {
            let address = small[choice.below(small.len() as u64) as usize].pointer;
            return Call::Free { address };
        }
        let bytes = match choice.below(60) {
            0 => 0,
            1 => (1 << 63) + choice.below(2),
            _ => 1 + choice.below(3),
        };
        let stream = choice.below(self.streams);
        Call::Malloc { bytes, stream }
    }

    /// A session both ways. A stopped pool is asked on for a while.
    fn session<F: Face>(
        &self,
        seed: u64,
        calls: u64,
        next: impl Fn(&Self, &mut Whim, &F::Of) -> Call,
    ) -> Two<F> {
        let failures = [0, 2, 30][seed as usize % 3];
        let mut choice = Whim::new(!seed, 0, 0);
        let mut two = Two::new(Whim::new(seed, failures, self.complete));
        if two.run(self.opening(&mut choice)) != 0 {
            return two;
        }
        let mut left = calls;
        while left > 0 {
            let call = next(self, &mut choice, &two.value);
            let stopped = two.run(call) == 2;
            left = if stopped { left / 2 } else { left - 1 };
        }
        two.run(Call::Close);
        two
    }
}

/// The numbers that a pool's own user can meet, but 5: it takes 2^62 calls.
const MET: [u64; 14] = [0, 2, 6, 7, 8, 9, 10, 11, 12, 13, 14, 15, 16, 19];
/// Those of a manager's sessions, in which fewer buffers are the pool's.
const MET_IN_BYTES: [u64; 11] = [0, 2, 6, 8, 12, 13, 14, 15, 16, 19, 20];

fn play<F: Face>(met: &[u64], next: impl Fn(&Kind, &mut Whim, &F::Of) -> Call) {
    let mut answers: BTreeMap<u64, u64> = BTreeMap::new();
    let (mut ahead, mut plain) = (0, 0);
    for seed in 0..120 {
        let kind = &KINDS[seed as usize % KINDS.len()];
        let two: Two<F> = kind.session(seed, 300, &next);
        for (number, times) in &two.answers {
            *answers.entry(*number).or_default() += times;
        }
        ahead += two.ahead.runs;
        plain += two.plain.runs;
    }
    println!("{answers:?}; {ahead} runs ahead, {plain} plainly");
    for number in met {
        assert!(
            answers.contains_key(number),
            "{number} was not met: {answers:?}"
        );
    }
    assert!(ahead * 2 < plain);
}

#[test]
fn both_ways_are_one() {
    play::<Pool>(&MET, Kind::call);
}

#[test]
fn both_ways_are_one_in_bytes() {
    play::<Manager>(&MET_IN_BYTES, Kind::call_in_bytes);
}
