//! The Rust's manager on fixed answers: what it does with small buffers, and where the layer does
//! otherwise (docs/DIFFERENCES.md).

use std::collections::{BTreeMap, VecDeque};

use compare::{
    manager::{session::ManagerSession, trace_of_step, Request, Step},
    session::{Answered, Call},
};
use original::driver::{Answer, Answers, Record, Word};

/// Pairs of code and value, one for each driver call; success where they run out.
#[derive(Default)]
struct Fixed {
    pairs: VecDeque<(i32, u64)>,
    sizes: BTreeMap<u64, u64>,
}

impl Answers for Fixed {
    fn lend(&mut self, wanted: Record) -> Answer {
        let (code, value) = self.pairs.pop_front().unwrap_or_default();
        if wanted.word == Word::Small && code == 0 {
            self.sizes.insert(value, wanted.second);
        }
        Answer { code, value }
    }

    fn small_size(&self, pointer: u64) -> u64 {
        self.sizes[&pointer]
    }
}

struct Opened(ManagerSession);

impl Opened {
    /// Page 4, va_size 40, base 1000; then these answers.
    fn new(pairs: &[(i32, u64)]) -> Self {
        let pairs = [(0, 1000)].iter().chain(pairs).copied().collect();
        let sizes = BTreeMap::new();
        let mut session = ManagerSession::new(4, Box::new(Fixed { pairs, sizes }));
        let open = Call::Open {
            page_size: 4,
            va_size: 40,
            initial_pages: 0,
        };
        session.run(open).expect("it opens");
        Self(session)
    }

    /// The call's lines of a trace, and its three numbers.
    fn run(&mut self, call: Call) -> (String, [u64; 3]) {
        let (outcome, small_streams) = self.0.run(call).expect("no panic");
        let Answered {
            first,
            second,
            answer,
        } = outcome.result;
        let step = Step {
            request: Request::Call(call),
            outcome,
            small_streams,
            after: None,
        };
        let text = trace_of_step(&step, 4).replace('\t', " ");
        (text, [first, second, answer])
    }

    fn malloc(&mut self, bytes: u64) -> (String, [u64; 3]) {
        self.run(Call::Malloc { bytes, stream: 1 })
    }

    fn free(&mut self, address: u64) -> (String, [u64; 3]) {
        self.run(Call::Free { address })
    }

    fn bytes(&self) -> (u64, u64) {
        let state = self.0.state().expect("it is open");
        (state.current, state.highest)
    }
}

#[test]
fn a_small_buffer_comes_and_goes() {
    let mut manager = Opened::new(&[(0, 7)]);
    assert_eq!(manager.malloc(3), ("small 7 3 0\n".into(), [7, 3, 0]));
    assert_eq!(manager.bytes(), (3, 3));
    assert_eq!(manager.free(7), ("dropsmall 7 3 0\n".into(), [3, 1, 0]));
    assert_eq!(manager.bytes(), (0, 3));
    let gone = ("free 7 0 0\nresult 7 0 16\n".into(), [7, 0, 16]);
    assert_eq!(manager.free(7), gone);
    manager.0.reset_highest();
    assert_eq!(manager.bytes(), (0, 0));
}

#[test]
fn a_failed_small_malloc_changes_nothing() {
    let mut manager = Opened::new(&[(2, 7)]);
    assert_eq!(manager.malloc(3), ("small 0 3 2\n".into(), [2, 0, 14]));
    assert_eq!(manager.bytes(), (0, 0));
    assert_eq!(manager.free(0).1, [0, 0, 16]);
}

#[test]
fn sizes_are_rounded() {
    let mut manager = Opened::new(&[(0, 71), (0, 0), (0, 72)]);
    let (text, result) = manager.malloc(5);
    assert!(text.starts_with("malloc 8 1 0\ncreate 71 4 0\n"), "{text}");
    assert!(text.ends_with("result 1000 8 0\n"), "{text}");
    assert_eq!(result, [1000, 8, 0]);
    assert_eq!(manager.bytes(), (8, 8));
    let most: u64 = 1 << 63;
    for bytes in [41, most - 3, most] {
        let whole = bytes.next_multiple_of(4);
        assert_eq!(manager.malloc(bytes).1, [whole, 40, 8]);
    }
    assert_eq!(manager.free(1000).1, [8, 1, 0]);
    assert_eq!(manager.bytes(), (0, 8));
}

/// A known difference: the layer keeps the buffer and its byte.
#[test]
fn a_failed_drop_lets_go() {
    let mut manager = Opened::new(&[(0, 7), (5, 0)]);
    manager.malloc(1);
    assert_eq!(manager.free(7), ("dropsmall 7 1 5\n".into(), [5, 0, 14]));
    assert_eq!(manager.bytes(), (0, 1));
    assert_eq!(manager.free(7).1, [7, 0, 16]);
}

/// Another: the Rust waits for the card before it gives its small buffers back, and again after it,
/// where the layer waits once. The session has taken the first wait away.
#[test]
fn a_close_drops_what_is_held() {
    let mut manager = Opened::new(&[(0, 9), (0, 7), (0, 8), (0, 0), (0, 0), (0, 0)]);
    for _ in 0..3 {
        manager.malloc(1);
    }
    let (text, result) = manager.run(Call::Close);
    let drops = "dropsmall 9 1 0\ndropsmall 7 1 0\ndropsmall 8 1 0\n";
    let close = "close 0 0 0\nsync 0 0 0\ngiveback 1000 40 0\nresult 0 0 0\n";
    assert_eq!((text, result), (format!("{drops}{close}"), [0, 0, 0]));
}
