//! The card's driver, as the pool sees it: the words of docs/RULES.md 2.1, a method for each.

use std::{
    io::{self, Write},
    num::NonZeroU64,
};

use crate::{ffi::SmallBuffer, Call, Happened};

/// A driver's failure. 0 is success and so is no failure.
pub type Code = NonZeroU64;

/// The code of a driver that has no small buffers: the driver's own number for what is not
/// supported.
const NOT_SUPPORTED: Code = match Code::new(801) {
    Some(code) => code,
    None => unreachable!(),
};

/// The driver calls that a pool or a manager makes. Each is made once, in the order of the call's log.
///
/// Addresses, handles, event ids and streams are numbers; what they stand for is the driver's to
/// know. A map is of one page, the size that create was told.
///
/// A method that panics in the middle of a call poisons the pool: only a close is served then. See
/// [`Pool::interrupted`](crate::Pool::interrupted).
pub trait Driver {
    /// Reserves a range of addresses and gives its base.
    fn reserve(&mut self, va_size: u64) -> Result<u64, Code>;
    /// Creates a page and gives its handle. Code 2 says that memory is used up, which ends no pool;
    /// any other does.
    fn create(&mut self, page_size: u64) -> Result<u64, Code>;
    /// Maps the page of a handle at an address.
    fn map(&mut self, address: u64, handle: u64) -> Result<(), Code>;
    /// Lets the card read and write a range.
    fn access(&mut self, address: u64, bytes: u64) -> Result<(), Code>;
    /// Unmaps a range, of one page or more.
    fn unmap(&mut self, address: u64, bytes: u64) -> Result<(), Code>;
    /// Releases a page's handle.
    fn release(&mut self, handle: u64) -> Result<(), Code>;
    /// Records a fresh event on a stream, to be known by this id.
    fn record(&mut self, id: u64, stream: u64) -> Result<(), Code>;
    /// Says whether an event is complete, without waiting.
    fn asked(&mut self, id: u64) -> Result<bool, Code>;
    /// Lets a stream wait for an event.
    fn wait(&mut self, id: u64, stream: u64) -> Result<(), Code>;
    /// Waits for all work of a stream: the one that an opening made its initial pages on.
    fn sync(&mut self, stream: u64) -> Result<(), Code>;
    /// Waits for all work of the card, before a close takes anything away. Its record is that of a
    /// sync of stream 0.
    fn sync_card(&mut self) -> Result<(), Code>;
    /// Gives a reserved range back.
    fn giveback(&mut self, base: u64, va_size: u64) -> Result<(), Code>;

    /// Makes a buffer of fewer bytes than a page has, for work on a stream, and gives its pointer.
    /// Only a [`Manager`](crate::Manager) asks for it. A failure stops nothing. Left as it is, it
    /// fails with code 801, not supported.
    fn small(&mut self, _size: u64, _stream: u64) -> Result<u64, Code> {
        Err(NOT_SUPPORTED)
    }

    /// Takes such a buffer back; the stream is the one that it was asked for on. A failure stops
    /// nothing, and the buffer is still held. Left as it is, it fails with code 801.
    fn drop_small(&mut self, _pointer: u64, _size: u64, _stream: u64) -> Result<(), Code> {
        Err(NOT_SUPPORTED)
    }

    /// Is told each call of the pool when it has ended: to print a trace, for instance. No driver
    /// call.
    fn happened(&mut self, _call: &Happened) {}

    /// Is told each of [`Happened::failures`], driver calls that failed and ended no call, before
    /// `happened` is told of the call. No driver call. Left as it is, it writes a line to standard
    /// error.
    fn passed_over(&mut self, failed: Record) {
        warn(failed);
    }
}

fn warn(failed: Record) {
    let line = format!("caldarimpu: passed over: {}\n", failed.in_words());
    // A standard error that takes nothing is no reason to end a call that went on.
    let _ = io::stderr().write_all(line.as_bytes());
}

/// A driver in one function, for those that note and answer every call alike, as made-up ones do.
/// Whatever has it is a [`Driver`].
pub trait Answers {
    /// Answers a driver call: a base, a handle, a small buffer's pointer, or 1 for an event that is
    /// complete; of any other word the number is not looked at. A sync of the card comes as one of
    /// stream 0.
    fn answer(&mut self, wanted: Record) -> Result<u64, Code>;

    /// Answers one for a small buffer of a manager, of which the record does not tell the stream.
    fn answer_on(&mut self, wanted: Record, _stream: u64) -> Result<u64, Code> {
        self.answer(wanted)
    }

    /// As [`Driver::happened`].
    fn told(&mut self, _call: &Happened) {}

    /// As [`Driver::passed_over`].
    fn warned(&mut self, failed: Record) {
        warn(failed);
    }
}

impl<T: Answers> Driver for T {
    fn reserve(&mut self, va_size: u64) -> Result<u64, Code> {
        self.answer(Record::wanted(Word::Reserve, 0, va_size))
    }

    fn create(&mut self, page_size: u64) -> Result<u64, Code> {
        self.answer(Record::wanted(Word::Create, 0, page_size))
    }

    fn map(&mut self, address: u64, handle: u64) -> Result<(), Code> {
        self.answer(Record::wanted(Word::Map, address, handle))
            .map(drop)
    }

    fn access(&mut self, address: u64, bytes: u64) -> Result<(), Code> {
        self.answer(Record::wanted(Word::Access, address, bytes))
            .map(drop)
    }

    fn unmap(&mut self, address: u64, bytes: u64) -> Result<(), Code> {
        self.answer(Record::wanted(Word::Unmap, address, bytes))
            .map(drop)
    }

    fn release(&mut self, handle: u64) -> Result<(), Code> {
        self.answer(Record::wanted(Word::Release, handle, 0))
            .map(drop)
    }

    fn record(&mut self, id: u64, stream: u64) -> Result<(), Code> {
        self.answer(Record::wanted(Word::Record, id, stream))
            .map(drop)
    }

    fn asked(&mut self, id: u64) -> Result<bool, Code> {
        let complete = self.answer(Record::wanted(Word::Asked, id, 0))?;
        Ok(complete == 1)
    }

    fn wait(&mut self, id: u64, stream: u64) -> Result<(), Code> {
        self.answer(Record::wanted(Word::Wait, id, stream))
            .map(drop)
    }

    fn sync(&mut self, stream: u64) -> Result<(), Code> {
        self.answer(Record::wanted(Word::Sync, stream, 0)).map(drop)
    }

    fn sync_card(&mut self) -> Result<(), Code> {
        self.answer(Record::wanted(Word::Sync, 0, 0)).map(drop)
    }

    fn giveback(&mut self, base: u64, va_size: u64) -> Result<(), Code> {
        self.answer(Record::wanted(Word::Giveback, base, va_size))
            .map(drop)
    }

    fn small(&mut self, size: u64, stream: u64) -> Result<u64, Code> {
        self.answer_on(Record::wanted(Word::Small, 0, size), stream)
    }

    fn drop_small(&mut self, pointer: u64, size: u64, stream: u64) -> Result<(), Code> {
        self.answer_on(Record::wanted(Word::DropSmall, pointer, size), stream)
            .map(drop)
    }

    fn happened(&mut self, call: &Happened) {
        self.told(call);
    }

    fn passed_over(&mut self, failed: Record) {
        self.warned(failed);
    }
}

/// The driver's words, by their numbers in a log. The last two are a manager's alone.
#[derive(Clone, Copy, Debug, PartialEq, Eq, PartialOrd, Ord)]
#[allow(missing_docs, reason = "the methods of Driver say what they are")]
pub enum Word {
    Reserve = 1,
    Create = 2,
    Map = 3,
    Access = 4,
    Unmap = 5,
    Release = 6,
    Record = 7,
    Asked = 8,
    Wait = 9,
    Sync = 10,
    Giveback = 11,
    Small = 17,
    DropSmall = 18,
}

impl Word {
    /// Every word.
    pub const ALL: [Word; 13] = [
        Word::Reserve,
        Word::Create,
        Word::Map,
        Word::Access,
        Word::Unmap,
        Word::Release,
        Word::Record,
        Word::Asked,
        Word::Wait,
        Word::Sync,
        Word::Giveback,
        Word::Small,
        Word::DropSmall,
    ];

    /// The word as a trace has it.
    pub fn name(self) -> &'static str {
        match self {
            Word::Reserve => "reserve",
            Word::Create => "create",
            Word::Map => "map",
            Word::Access => "access",
            Word::Unmap => "unmap",
            Word::Release => "release",
            Word::Record => "record",
            Word::Asked => "asked",
            Word::Wait => "wait",
            Word::Sync => "sync",
            Word::Giveback => "giveback",
            Word::Small => "small",
            Word::DropSmall => "dropsmall",
        }
    }

    /// The word's number in a log.
    pub fn kind(self) -> u64 {
        self as u64
    }

    fn of_kind(kind: u64) -> Option<Self> {
        Self::ALL.into_iter().find(|word| word.kind() == kind)
    }

    /// Whether it is for a small buffer.
    pub(crate) fn is_of_small(self) -> bool {
        matches!(self, Word::Small | Word::DropSmall)
    }
}

/// One driver call with its answer, as the log and a trace have it.
#[derive(Clone, Copy, Debug, PartialEq, Eq)]
pub struct Record {
    /// Which call.
    pub word: Word,
    /// Its first number; of a reserve, create or small that succeeded, what the driver gave.
    pub first: u64,
    /// Its second number; of an asked, 1 for complete.
    pub second: u64,
    /// 0 for success.
    pub code: u64,
}

impl Record {
    /// A record of the log.
    pub fn of_numbers(numbers: [u64; 4]) -> Option<Self> {
        let [kind, first, second, code] = numbers;
        Some(Self {
            word: Word::of_kind(kind)?,
            first,
            second,
            code,
        })
    }

    /// A driver call that is not made yet.
    fn wanted(word: Word, first: u64, second: u64) -> Self {
        Self {
            word,
            first,
            second,
            code: 0,
        }
    }

    /// For a message: `map 96 3`, and its code if it failed.
    pub(crate) fn in_words(&self) -> String {
        let Self {
            word,
            first,
            second,
            code,
        } = *self;
        let call = format!("{} {first} {second}", word.name());
        match code {
            0 => call,
            code => format!("{call}, code {code}"),
        }
    }

    /// The record that this driver call leaves when it is answered so.
    pub(crate) fn answered(self, answer: Answer) -> Self {
        let Answer { code, value } = answer;
        let given = if code == 0 { value } else { 0 };
        let (first, second) = match self.word {
            Word::Reserve | Word::Create | Word::Small => (given, self.second),
            Word::Asked => (self.first, (given == 1) as u64),
            _ => (self.first, self.second),
        };
        Self {
            first,
            second,
            code,
            ..self
        }
    }
}

/// What the library is lent for one driver call. Value is a base, a handle, a pointer, or 1 for
/// complete.
#[derive(Clone, Copy, Debug, PartialEq, Eq)]
pub(crate) struct Answer {
    pub code: u64,
    pub value: u64,
}

impl Answer {
    pub fn of(answer: Result<u64, Code>) -> Self {
        match answer {
            Ok(value) => Self { code: 0, value },
            Err(code) => Self {
                code: code.get(),
                value: 0,
            },
        }
    }
}

/// Makes the driver call of a record in a call that found these small buffers. What only an answer
/// tells is not looked at.
pub(crate) fn make(
    driver: &mut dyn Driver,
    call: Call,
    small: &[SmallBuffer],
    wanted: Record,
) -> Answer {
    let Record { first, second, .. } = wanted;
    let nothing = |()| 0;
    Answer::of(match wanted.word {
        Word::Reserve => driver.reserve(second),
        Word::Create => driver.create(second),
        Word::Map => driver.map(first, second).map(nothing),
        Word::Access => driver.access(first, second).map(nothing),
        Word::Unmap => driver.unmap(first, second).map(nothing),
        Word::Release => driver.release(first).map(nothing),
        Word::Record => driver.record(first, second).map(nothing),
        Word::Asked => driver.asked(first).map(u64::from),
        Word::Wait => driver.wait(first, second).map(nothing),
        Word::Sync if call == Call::Close => driver.sync_card().map(nothing),
        Word::Sync => driver.sync(first).map(nothing),
        Word::Giveback => driver.giveback(first, second).map(nothing),
        Word::Small => driver.small(second, stream_of(call, small, wanted)),
        Word::DropSmall => {
            let stream = stream_of(call, small, wanted);
            driver.drop_small(first, second, stream).map(nothing)
        }
    })
}

/// The stream of a small buffer, which its record does not tell: the malloc's, or in any other call
/// that of the buffer at the pointer.
fn stream_of(call: Call, small: &[SmallBuffer], wanted: Record) -> u64 {
    if let Call::Malloc { stream, .. } = call {
        return stream;
    }
    let held = small.iter().find(|held| held.pointer == wanted.first);
    held.expect("libfinder.a drops small buffers that are held")
        .stream
}
