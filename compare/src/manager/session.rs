//! One manager of the original, from its opening to its close, with the layer's answers.

use original::{
    driver::{self, Answers, Record, Word},
    error::MemoryError,
    memory_manager::Manager,
};

use super::State;
use crate::session::{
    answer_of_error, answered, caught, sort_pages, Answered, Call, Outcome, Streams,
};

/// Not to be sent on: the driver's card belongs to the thread.
pub struct ManagerSession {
    manager: Option<Manager>,
    streams: Streams,
    /// Pointers of small buffers in the order in which they came, which is the layer's.
    order: Vec<u64>,
}

impl ManagerSession {
    /// A session on a new card. The manager is opened by its first call.
    pub fn new(page_size: u64, answers: Box<dyn Answers>) -> Self {
        driver::insert_card(page_size as usize, answers);
        Self {
            manager: None,
            streams: Streams::default(),
            order: Vec::new(),
        }
    }

    /// `None` before the opening and after the close.
    pub fn state(&self) -> Option<State> {
        let manager = self.manager.as_ref()?;
        let (current, highest) = manager.bytes();
        Some(State {
            tables: manager.tables(),
            small: manager.small(),
            current,
            highest,
        })
    }

    pub fn reset_highest(&mut self) {
        self.open_manager().reset_peak();
    }

    /// Runs a call, or says how the Rust panicked; nothing can be done with the session then. Gives
    /// the stream of each record of small buffers too.
    pub fn run(&mut self, call: Call) -> Result<(Outcome, Vec<u64>), String> {
        let zombies = self.state().map_or(0, |state| state.tables.zombies.len());
        let result = caught(|| self.answer(call))?;
        let mut records = driver::take_records();
        let mut streams = driver::take_small_streams();
        if call == Call::Close {
            self.sort_close(&mut records, &mut streams, zombies)?;
        }
        for record in records.iter().filter(|record| record.code == 0) {
            match record.word {
                Word::Small => self.order.push(record.first),
                Word::DropSmall => self.forget(record.first),
                _ => {}
            }
        }
        Ok((Outcome { records, result }, streams))
    }

    /// The card has taken it back.
    pub fn forget(&mut self, pointer: u64) {
        self.order.retain(|held| *held != pointer);
    }

    /// The Rust waits for the card before its small buffers too, where the layer does not; and both
    /// these and its pages it gives back in no order of its own.
    fn sort_close(
        &self,
        records: &mut Vec<Record>,
        streams: &mut Vec<u64>,
        zombies: usize,
    ) -> Result<(), String> {
        let first = records.remove(0);
        if (first.word, first.code) != (Word::Sync, 0) {
            return Err(format!("the Rust's drop begins by {first:?}"));
        }
        let drops = streams.len();
        let mut small: Vec<(Record, u64)> =
            (records.drain(..drops)).zip(streams.drain(..)).collect();
        let place = |record: &Record| self.order.iter().position(|held| *held == record.first);
        small.sort_by_key(|(record, _)| place(record));
        let mut others = std::mem::take(records);
        sort_pages(&mut others, zombies);
        for (record, stream) in small {
            records.push(record);
            streams.push(stream);
        }
        records.append(&mut others);
        Ok(())
    }

    fn answer(&mut self, call: Call) -> Answered {
        match call {
            Call::Open {
                va_size,
                initial_pages,
                ..
            } => {
                let manager = Manager::open(va_size as usize, initial_pages as usize);
                let (base, page_size) = (manager.base(), manager.page_size());
                self.manager = Some(manager);
                answered(base, page_size, 0)
            }
            Call::Malloc { bytes, stream } => {
                let stream = self.streams.get(stream);
                let manager = self.open_manager();
                let (before, _) = manager.bytes();
                match manager.malloc(bytes as usize, &stream) {
                    Ok(address) => answered(address, manager.bytes().0 - before, 0),
                    Err(error) => answer_of_error(error),
                }
            }
            Call::Free { address } => {
                let manager = self.open_manager();
                let (before, _) = manager.bytes();
                match manager.free(address) {
                    Ok(stream) => answered(
                        before - manager.bytes().0,
                        driver::stream_number(stream.as_raw()),
                        0,
                    ),
                    Err(MemoryError::InvalidPointer | MemoryError::NullPointer) => {
                        answered(address, 0, 16)
                    }
                    Err(error) => answer_of_error(error),
                }
            }
            Call::Close => {
                self.manager.take().expect("the manager is open").close();
                answered(0, 0, 0)
            }
        }
    }

    fn open_manager(&mut self) -> &mut Manager {
        self.manager.as_mut().expect("the manager is open")
    }
}
