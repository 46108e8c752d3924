//! The card that the pool's driver calls reach: it numbers streams and events, takes one lent
//! answer a call, and notes a record of each as docs/RULES.md 2.1 says.

use std::{cell::RefCell, ffi::c_void, rc::Rc};

/// The driver's words, in the order of their numbers.
#[derive(Clone, Copy, Debug, PartialEq, Eq, PartialOrd, Ord)]
pub enum Word {
    Reserve,
    Create,
    Map,
    Access,
    Unmap,
    Release,
    Record,
    Asked,
    Wait,
    Sync,
    Giveback,
    /// Of small buffers, which no pool asks for but the layer above it. Both stand between calls.
    Small,
    DropSmall,
}

impl Word {
    pub fn is_of_small_buffers(self) -> bool {
        matches!(self, Self::Small | Self::DropSmall)
    }
}

#[derive(Clone, Copy, Debug, PartialEq, Eq)]
pub struct Record {
    pub word: Word,
    pub first: u64,
    pub second: u64,
    pub code: u64,
}

/// One lent answer pair. Codes are what a C function can return for a failure: positive, or 0.
#[derive(Clone, Copy, Debug)]
pub struct Answer {
    pub code: i32,
    pub value: u64,
}

impl Answer {
    pub fn is_complete(self) -> bool {
        self.code == 0 && self.value == 1
    }
}

/// Where answers come from. It is called from a C function and so must not panic.
pub trait Answers {
    /// `wanted` is the record to be, with 0 for its code and for what only the answer tells.
    fn lend(&mut self, wanted: Record) -> Answer;

    /// The size of a small buffer that was lent, 0 for a pointer that is none.
    fn small_size(&self, _pointer: u64) -> u64 {
        0
    }
}

/// For a source that its owner also reaches between calls.
impl<T: Answers> Answers for Rc<RefCell<T>> {
    fn lend(&mut self, wanted: Record) -> Answer {
        self.borrow_mut().lend(wanted)
    }

    fn small_size(&self, pointer: u64) -> u64 {
        self.borrow().small_size(pointer)
    }
}

struct Card {
    granularity: usize,
    answers: Box<dyn Answers>,
    records: Vec<Record>,
    /// For each event made, the id under which it was recorded.
    events: Vec<Option<u64>>,
    /// For each stream made, its number.
    streams: Vec<u64>,
    /// The next stream's number. The pool's own initial stream is 0.
    next_stream: u64,
    /// Successful records so far: the next one's event id.
    recorded: u64,
    /// The streams that small buffers were asked for or given back on, which no record has.
    small_streams: Vec<u64>,
}

thread_local! {
    static CARD: RefCell<Option<Card>> = const { RefCell::new(None) };
}

fn with_card<T>(act: impl FnOnce(&mut Card) -> T) -> T {
    CARD.with_borrow_mut(|card| act(card.as_mut().expect("a card is in")))
}

/// Puts a new card in. The pool on the one before must be gone.
pub fn insert_card(granularity: usize, answers: Box<dyn Answers>) {
    let card = Card {
        granularity,
        answers,
        records: Vec::new(),
        events: Vec::new(),
        streams: Vec::new(),
        next_stream: 0,
        recorded: 0,
        small_streams: Vec::new(),
    };
    CARD.set(Some(card));
}

/// Gives the next stream made its number.
pub fn number_next_stream(number: u64) {
    with_card(|card| card.next_stream = number);
}

/// Makes room for a call's records and events, so that a benchmark does not time the noting of them.
pub fn make_room(records: usize) {
    with_card(|card| {
        card.records.reserve(records);
        card.events.reserve(records);
    });
}

/// Hands over the records noted since the last time.
pub fn take_records() -> Vec<Record> {
    with_card(|card| std::mem::take(&mut card.records))
}

/// Hands over the streams of small buffers noted since the last time, one for each such record.
pub fn take_small_streams() -> Vec<u64> {
    with_card(|card| std::mem::take(&mut card.small_streams))
}

/// The id of a recorded event.
pub fn event_id(event: *mut c_void) -> u64 {
    with_card(|card| card.events[place(event)].expect("the event was recorded"))
}

pub fn stream_number(stream: *mut c_void) -> u64 {
    with_card(|card| card.streams[place(stream)])
}

pub(crate) fn granularity() -> usize {
    with_card(|card| card.granularity)
}

pub(crate) fn make_stream() -> *mut c_void {
    with_card(|card| {
        card.streams.push(card.next_stream);
        pointer(card.streams.len())
    })
}

pub(crate) fn make_event() -> *mut c_void {
    with_card(|card| {
        card.events.push(None);
        pointer(card.events.len())
    })
}

/// A call whose record is known but for its code.
pub(crate) fn call(word: Word, first: u64, second: u64) -> i32 {
    with_card(|card| card.note(word, first, second).code)
}

/// A call whose answer's value is the record's first number: reserve, create and small.
pub(crate) fn call_for_value(word: Word, second: u64, out: &mut u64) -> i32 {
    with_card(|card| {
        let answer = card.note(word, 0, second);
        if answer.code == 0 {
            *out = answer.value;
            card.last_record().first = answer.value;
        }
        answer.code
    })
}

pub(crate) fn small(size: u64, stream: *mut c_void, out: &mut u64) -> i32 {
    note_small_stream(stream);
    call_for_value(Word::Small, size, out)
}

/// The card knows a small buffer's size; the original does not say it again.
pub(crate) fn drop_small(pointer: u64, stream: *mut c_void) -> i32 {
    note_small_stream(stream);
    with_card(|card| {
        let size = card.answers.small_size(pointer);
        card.note(Word::DropSmall, pointer, size).code
    })
}

fn note_small_stream(stream: *mut c_void) {
    with_card(|card| {
        let number = card.streams[place(stream)];
        card.small_streams.push(number);
    });
}

pub(crate) fn record(event: *mut c_void, stream: *mut c_void) -> i32 {
    with_card(|card| {
        let stream = card.streams[place(stream)];
        let answer = card.note(Word::Record, card.recorded, stream);
        if answer.code == 0 {
            card.events[place(event)] = Some(card.recorded);
            card.recorded += 1;
        }
        answer.code
    })
}

/// What cudaEventQuery returns: 0 for complete, 600 for not yet, or the failure's own code.
pub(crate) fn query(event: *mut c_void) -> i32 {
    const NOT_READY: i32 = 600;
    let id = event_id(event);
    with_card(|card| {
        let answer = card.note(Word::Asked, id, 0);
        card.last_record().second = answer.is_complete() as u64;
        match answer.code {
            0 if answer.is_complete() => 0,
            0 => NOT_READY,
            code => code,
        }
    })
}

impl Card {
    fn note(&mut self, word: Word, first: u64, second: u64) -> Answer {
        // A pool dropped by a panic closes itself: no call's answers are meant for that.
        if std::thread::panicking() {
            return Answer { code: 0, value: 0 };
        }
        let wanted = Record {
            word,
            first,
            second,
            code: 0,
        };
        let answer = self.answers.lend(wanted);
        self.records.push(Record {
            code: answer.code as u64,
            ..wanted
        });
        answer
    }

    fn last_record(&mut self) -> &mut Record {
        self.records.last_mut().expect("a record was just noted")
    }
}

/// Streams and events are pointers to the original; the null pointer means none there.
fn pointer(count: usize) -> *mut c_void {
    std::ptr::without_provenance_mut(count)
}

fn place(pointer: *mut c_void) -> usize {
    pointer.addr() - 1
}
