//! The judge (docs/RULES.md 8): a trace line by line, in memory that the four sizes bound.

mod held;

use std::{
    fmt,
    io::{self, BufRead, Read},
};

use original::driver::{Record, Word};

use crate::text::{driver_word, fields};
use held::Held;

/// `dropsmall` and three numbers of twenty digits, each after a tab. A longer line is malformed.
const LONGEST: u64 = 9 + 3 * 21;

/// What ends a trace at a line.
#[derive(Clone, Copy, Debug, PartialEq, Eq)]
pub enum Fault {
    /// The rule that the line breaks, R0 to R10.
    Rule(u64),
    /// The size that it goes beyond.
    Size(Size),
}

/// Numbered as in the verdict.
#[derive(Clone, Copy, Debug, PartialEq, Eq)]
pub enum Size {
    Reservations = 1,
    Handles,
    Live,
    Mapped,
}

impl Size {
    pub const fn limit(self) -> usize {
        match self {
            Size::Reservations => 16,
            Size::Handles => 256,
            Size::Live => 128,
            Size::Mapped => 4096,
        }
    }
}

#[derive(Clone, Copy, Debug, PartialEq, Eq)]
pub enum Verdict {
    Accepted,
    Ended { line: u64, fault: Fault },
}

impl fmt::Display for Verdict {
    fn fmt(&self, out: &mut fmt::Formatter) -> fmt::Result {
        match *self {
            Verdict::Accepted => write!(out, "accepted\t0\t0\t0"),
            Verdict::Ended { line, fault } => match fault {
                Fault::Rule(rule) => write!(out, "rejected\t{line}\t{rule}\t0"),
                Fault::Size(size) => write!(out, "large\t{line}\t{}\t0", size as u64),
            },
        }
    }
}

/// The call whose result has yet to come, with those of its numbers that a rule speaks of.
#[derive(Clone, Copy, Debug, PartialEq, Eq)]
enum Call {
    Open,
    Malloc { bytes: u64, stream: u64 },
    Free { address: u64 },
    Close,
}

#[derive(Clone, Copy, Debug, PartialEq, Eq)]
enum Place {
    /// Before the first line.
    Start,
    In(Call),
    /// After a result.
    Between,
}

/// A trace up to some line, with no fault so far.
#[derive(Clone)]
pub struct Judge {
    lines: u64,
    place: Place,
    /// A close had result 0.
    closed: bool,
    held: Held,
}

/// The verdict on a whole trace. Nothing is read past the line that decides it.
pub fn judge(mut input: impl BufRead) -> io::Result<Verdict> {
    let mut judge = Judge::new();
    let mut line = Vec::new();
    loop {
        line.clear();
        // One byte more for the line feed. A part of a longer line is no good line either.
        let mut part = input.by_ref().take(LONGEST + 1);
        if part.read_until(b'\n', &mut line)? == 0 {
            return Ok(judge.end());
        }
        if line.last() == Some(&b'\n') {
            line.pop();
        }
        if let Err(verdict) = judge.read(&line) {
            return Ok(verdict);
        }
    }
}

const R0: Fault = Fault::Rule(0);

impl Judge {
    #[allow(clippy::new_without_default, reason = "a trace has no default")]
    pub fn new() -> Self {
        Self {
            lines: 0,
            place: Place::Start,
            closed: false,
            held: Held::default(),
        }
    }

    /// The next line, without its line feed. A verdict given here is final.
    pub fn read(&mut self, line: &[u8]) -> Result<(), Verdict> {
        self.lines += 1;
        let line_number = self.lines;
        self.try_line(line).map_err(|fault| Verdict::Ended {
            line: line_number,
            fault,
        })
    }

    /// The verdict if no line follows. A missing one counts as that after the last.
    pub fn end(&self) -> Verdict {
        if self.place == Place::Between {
            return Verdict::Accepted;
        }
        Verdict::Ended {
            line: self.lines + 1,
            fault: R0,
        }
    }

    fn try_line(&mut self, line: &[u8]) -> Result<(), Fault> {
        let (word, numbers) = fields(line).map_err(|_| R0)?;
        let [first, second, third] = numbers;
        match word {
            "open" => self.open(first, second),
            "malloc" => self.call(Call::Malloc {
                bytes: first,
                stream: second,
            }),
            "free" => self.call(Call::Free { address: first }),
            "close" => self.call(Call::Close),
            "result" => self.result(numbers),
            _ => self.record(Record {
                word: driver_word(word).map_err(|_| R0)?,
                first,
                second,
                code: third,
            }),
        }
    }

    fn open(&mut self, page_size: u64, va_size: u64) -> Result<(), Fault> {
        if self.place != Place::Start || page_size == 0 {
            return Err(R0);
        }
        self.held = Held::new(page_size, va_size);
        self.place = Place::In(Call::Open);
        Ok(())
    }

    fn call(&mut self, call: Call) -> Result<(), Fault> {
        if self.place != Place::Between {
            return Err(R0);
        }
        self.place = Place::In(call);
        Ok(())
    }

    fn record(&mut self, record: Record) -> Result<(), Fault> {
        if record.word.is_of_small_buffers() {
            return self.pass_over();
        }
        let Place::In(call) = self.place else {
            return Err(R0);
        };
        if self.closed {
            return Err(R0);
        }
        if call == Call::Close {
            // The first record ends them, failed or not. Later ones find none.
            self.held.end_all_live();
        }
        if record.code > 0 {
            return Ok(());
        }
        let Record { first, second, .. } = record;
        match record.word {
            Word::Reserve => self.held.reserve(first, second),
            Word::Create => self.held.create(first),
            Word::Map => self.held.map(first, second),
            Word::Access => self.held.access(first, second),
            Word::Unmap => self.held.unmap(first, second),
            Word::Release => self.held.release(first),
            Word::Record => self.held.record(first),
            Word::Asked | Word::Wait => self.held.is_recorded(first),
            Word::Sync | Word::Small | Word::DropSmall => Ok(()),
            Word::Giveback => self.held.give_back(first, second),
        }
    }

    /// Small buffers stand where a call could, also after the close that ended the pool.
    fn pass_over(&self) -> Result<(), Fault> {
        match self.place {
            Place::Between => Ok(()),
            Place::Start | Place::In(_) => Err(R0),
        }
    }

    fn result(&mut self, numbers: [u64; 3]) -> Result<(), Fault> {
        let Place::In(call) = self.place else {
            return Err(R0);
        };
        self.place = Place::Between;
        if self.closed {
            return if numbers == [0, 0, 1] {
                Ok(())
            } else {
                Err(R0)
            };
        }
        let [first, second, answer] = numbers;
        if answer != 0 {
            return Ok(());
        }
        match call {
            Call::Open => Ok(()),
            Call::Malloc { bytes, stream } => self.held.malloc(bytes, stream, first, second),
            Call::Free { address } => self.held.free(address, first, second),
            Call::Close => {
                self.closed = true;
                Ok(())
            }
        }
    }
}
