//! The answers of docs/RULES.md 4.1 other than success.

use std::{error::Error, fmt};

use crate::{Call, Happened, Record, Word};

/// Why a call was not served. 17, answers ran out, is not among them: the driver is always asked.
#[derive(Clone, Copy, Debug, PartialEq, Eq)]
pub enum Refusal {
    /// 1. Not for a [`Pool`](crate::Pool), which is gone when it is closed.
    PoolClosed,
    /// 2: a call before was answered 14 or 15.
    PoolStopped,
    /// 3. Not for a [`Pool`](crate::Pool), which keeps the library's own values.
    NotWellFormed,
    /// 4. Not for a [`Pool`](crate::Pool), whose log is long enough.
    ShortLog,
    /// 5: 2^62 events were recorded.
    IdsSpent,
    /// 6: the size is 0 or no multiple of the page size; of a manager: 0, or above 2^63 when
    /// rounded.
    BadSize {
        /// The size asked for.
        size: u64,
    },
    /// 7: there are 128 free regions and live buffers.
    SpansFull,
    /// 8: nothing free fits, and the size is above that of a root.
    RequestedExceedsVa {
        /// The size asked for.
        size: u64,
        /// The bytes of a root.
        va_size: u64,
    },
    /// 9: nothing free fits, and 256 active pages would not do.
    PagesFull,
    /// 10: nothing free fits, and moving pages could leave more zombies or holes than there is room
    /// for.
    ZombiesFull,
    /// 11: no hole suffices, and there are 16 roots.
    RootsFull,
    /// 12: the driver would not reserve.
    ReserveFailed {
        /// The bytes of a root.
        va_size: u64,
        /// The page size.
        page_size: u64,
    },
    /// 13: the driver has no memory for the pages that are missing.
    OutOfMemory {
        /// Bytes that had to be created.
        missing: u64,
        /// Bytes of them that were, and were released again.
        created: u64,
    },
    /// 14: another driver call failed. The pool is stopped, unless it was one for a small buffer of
    /// a manager: then nothing has changed.
    DriverFailed {
        /// That driver call, with the driver's code.
        record: Record,
        /// Whether it was an opening's: then there is no pool.
        opening: bool,
    },
    /// 15: a base, a handle or a small buffer's pointer that the driver can't have given. The pool
    /// is stopped.
    Incredible {
        /// The reserve, create or small that was answered so.
        record: Record,
        /// Whether it was an opening's: then there is no pool.
        opening: bool,
    },
    /// 16: no live buffer starts there.
    InvalidPointer {
        /// The address.
        address: u64,
    },
    /// 19: a configuration that open does not take.
    BadConfiguration,
    /// 20: a manager holds 128 small buffers, and one more was asked for.
    SmallsFull,
    /// The package's own, of no number: the driver panicked in a call before, see
    /// [`Pool::interrupted`](crate::Pool::interrupted). No driver call is made, and
    /// [`Driver::happened`](crate::Driver::happened) is not told.
    Poisoned,
}

/// What a call that was answered 14 or 15 has left in no table, so that no close gives it back.
#[derive(Clone, Copy, Debug, PartialEq, Eq)]
pub enum Orphan {
    /// A page whose map failed: to be released, after the close.
    Page {
        /// Its handle.
        handle: u64,
    },
    /// A reservation that was not believed: to be given back, after the close.
    Range {
        /// Its base.
        base: u64,
        /// Its bytes.
        va_size: u64,
    },
}

use Refusal::*;

impl Refusal {
    /// Why a call that has ended was not served; none for 0, which is success.
    pub(crate) fn of(happened: &Happened) -> Option<Self> {
        let &Happened { first, second, .. } = happened;
        Some(match happened.answer {
            0 => return None,
            1 => PoolClosed,
            2 => PoolStopped,
            3 => NotWellFormed,
            4 => ShortLog,
            5 => IdsSpent,
            6 => BadSize { size: first },
            7 => SpansFull,
            8 => RequestedExceedsVa {
                size: first,
                va_size: second,
            },
            9 => PagesFull,
            10 => ZombiesFull,
            11 => RootsFull,
            12 => ReserveFailed {
                va_size: first,
                page_size: second,
            },
            13 => OutOfMemory {
                missing: first,
                created: second,
            },
            14 | 15 => Self::of_stop(happened),
            16 => InvalidPointer { address: first },
            19 => BadConfiguration,
            20 => SmallsFull,
            other => {
                panic!("libfinder.a answers {other}, which no call of this package has to meet")
            }
        })
    }

    /// That of 14 or 15, which the last driver call of a call gives.
    fn of_stop(happened: &Happened) -> Self {
        let last = happened.records.last();
        let record = *last.expect("libfinder.a stops no pool without a driver call");
        let opening = matches!(happened.call, Call::Open(_));
        match happened.answer {
            14 => DriverFailed { record, opening },
            _ => Incredible { record, opening },
        }
    }

    /// The answer's number; the package's own refusal has none.
    pub fn number(self) -> Option<u64> {
        Some(match self {
            PoolClosed => 1,
            PoolStopped => 2,
            NotWellFormed => 3,
            ShortLog => 4,
            IdsSpent => 5,
            BadSize { .. } => 6,
            SpansFull => 7,
            RequestedExceedsVa { .. } => 8,
            PagesFull => 9,
            ZombiesFull => 10,
            RootsFull => 11,
            ReserveFailed { .. } => 12,
            OutOfMemory { .. } => 13,
            DriverFailed { .. } => 14,
            Incredible { .. } => 15,
            InvalidPointer { .. } => 16,
            BadConfiguration => 19,
            SmallsFull => 20,
            Poisoned => return None,
        })
    }

    /// Whether the pool is stopped since: then only close is served. An opening leaves none, and a
    /// failure for a small buffer stops nothing.
    pub fn stops(self) -> bool {
        match self {
            DriverFailed { record, .. } if record.word.is_of_small() => false,
            DriverFailed { opening, .. } | Incredible { opening, .. } => !opening,
            _ => false,
        }
    }

    /// What the call has left that no close gives back.
    pub fn orphan(self) -> Option<Orphan> {
        match self {
            DriverFailed { record, .. } if record.word == Word::Map => Some(Orphan::Page {
                handle: record.second,
            }),
            Incredible { record, .. } if record.word == Word::Reserve => Some(Orphan::Range {
                base: record.first,
                va_size: record.second,
            }),
            _ => None,
        }
    }

    /// What to do after 14 and 15 that stop a pool.
    fn after_a_stop(self) -> String {
        let (pool, joint) = if self.stops() {
            ("close the pool", ", then")
        } else {
            ("no pool was opened", ";")
        };
        match self.orphan() {
            None => pool.to_string(),
            Some(Orphan::Page { handle }) => format!("{pool}{joint} release handle {handle}"),
            Some(Orphan::Range { base, .. }) => format!("{pool}{joint} give base {base} back"),
        }
    }
}

/// What is wrong, and what to do.
impl fmt::Display for Refusal {
    fn fmt(&self, out: &mut fmt::Formatter) -> fmt::Result {
        match *self {
            PoolClosed => out.write_str("the pool is closed: open one"),
            PoolStopped => out.write_str("the pool is stopped: close it and open another"),
            NotWellFormed => out.write_str("the value is no pool that a call left"),
            ShortLog => out.write_str("the log has no room for 2048 records"),
            IdsSpent => out.write_str("2^62 events were recorded: close the pool and open another"),
            BadSize { size: 0 } => out.write_str("0 bytes: ask for some"),
            BadSize { size } => write!(
                out,
                "{size} bytes: ask a pool for a multiple of the page size, a manager for at most \
                 2^63"
            ),
            SpansFull => out.write_str(
                "128 free regions and live buffers: free one beside a free region of its stream",
            ),
            RequestedExceedsVa { size, va_size } => write!(
                out,
                "{size} bytes, and a reservation has {va_size}: ask for less, or open with a \
                 larger va_size"
            ),
            PagesFull => {
                out.write_str("more than 256 pages: free buffers, or open with a larger page size")
            }
            ZombiesFull => out.write_str("too many moved ranges: let streams finish, ask again"),
            RootsFull => {
                out.write_str("16 reservations, and no hole suffices: ask for less, free buffers")
            }
            ReserveFailed { va_size, page_size } => write!(
                out,
                "the driver would not reserve {va_size} bytes for pages of {page_size}: free \
                 address space, then ask again"
            ),
            OutOfMemory { missing, created } => write!(
                out,
                "the card has no memory: {missing} bytes were missing, {created} could be created: \
                 free some, or ask for less"
            ),
            DriverFailed { record, .. } if record.word.is_of_small() => {
                let failed = record.in_words();
                write!(
                    out,
                    "a driver call failed ({failed}): nothing has changed, go on"
                )
            }
            DriverFailed { record, .. } => {
                let (failed, after) = (record.in_words(), self.after_a_stop());
                write!(out, "a driver call failed ({failed}): {after}")
            }
            Incredible { record, .. } => {
                let (given, after) = (record.in_words(), self.after_a_stop());
                let what = match record.word {
                    Word::Small => "a pointer",
                    _ => "a base or a handle",
                };
                write!(
                    out,
                    "the driver gave {what} that can't be ({given}): {after}; mend the driver"
                )
            }
            InvalidPointer { address } => write!(out, "no live buffer starts at {address}"),
            BadConfiguration => out.write_str(
                "wanted: a granularity above 0 that divides the override; a va_size above 0, at \
                 most 2^46, that is a multiple of the page size; at most 256 initial pages, which \
                 fit in it",
            ),
            SmallsFull => out.write_str("128 small buffers: free one, or ask for at least a page"),
            Poisoned => out.write_str("the driver panicked in an earlier call: close the pool"),
        }
    }
}

impl Error for Refusal {}

#[cfg(test)]
mod tests {
    use super::*;

    /// A free that was answered so, by its one driver call.
    fn refusal(answer: u64) -> Option<Refusal> {
        let record = Record::of_numbers([7, 3, 1, 700]).expect("a record");
        Refusal::of(&Happened {
            call: Call::Free { address: 80 },
            asked: Some(Call::Free { address: 80 }),
            records: &[record],
            answer,
            first: 5,
            second: 6,
            runs: 1,
        })
    }

    #[test]
    fn numbers_come_back() {
        assert_eq!(refusal(0), None);
        for answer in (1..=16).chain([19, 20]) {
            let refusal = refusal(answer).expect("a refusal");
            assert_eq!(refusal.number(), Some(answer));
            assert_eq!(refusal.stops(), answer == 14 || answer == 15);
            assert!(!refusal.to_string().is_empty());
        }
    }

    #[test]
    #[should_panic(expected = "answers 17")]
    fn answers_never_run_out() {
        refusal(17);
    }
}
