//! The port, by its static library.

use caldarimpu::ffi::{self, Pool, LOG};
use compare::session::{Answered, Call};

use crate::measured;

pub struct Ours {
    pool: Box<Pool>,
    answers: Vec<u64>,
    log: Vec<u64>,
    /// Records of the last call.
    records: usize,
}

impl Ours {
    pub fn new() -> Self {
        Self {
            pool: Box::new(Pool::closed()),
            answers: Vec::new(),
            log: vec![0; 4 * LOG],
            records: 0,
        }
    }

    /// Lends the answers of the next call; not part of it.
    pub fn lend(&mut self, answers: &[u64]) {
        self.answers.clear();
        self.answers.extend_from_slice(answers);
    }

    pub fn run(&mut self, call: Call) -> Answered {
        let (pool, lent, log) = (&*self.pool, &self.answers, &mut self.log);
        let reply = match call {
            Call::Open {
                page_size,
                va_size,
                initial_pages,
            } => ffi::open(page_size, 0, va_size, initial_pages, 0, lent, log),
            Call::Malloc { bytes, stream } => ffi::malloc(pool, bytes, stream, lent, log),
            Call::Free { address } => ffi::free(pool, address, lent, log),
            Call::Close => ffi::close(pool, lent, log),
        };
        *self.pool = reply.pool;
        self.records = reply.records;
        Answered {
            first: reply.first,
            second: reply.second,
            answer: reply.answer,
        }
    }

    /// The pool in and out.
    pub fn pass(&mut self) {
        *self.pool = measured::passed(&self.pool).pool;
    }

    /// The pool in, each number of it looked at once, and out.
    pub fn look(&mut self) {
        let passed = measured::looked(&self.pool);
        assert!(passed.sound, "a call left a pool that is not in order");
        *self.pool = passed.pool;
    }

    /// The pool in, tested, and out.
    pub fn test(&mut self) {
        let passed = measured::tested(&self.pool);
        assert!(passed.sound, "a call left a pool that is not well formed");
        *self.pool = passed.pool;
    }

    /// The records of the last call: kind, first, second, code.
    pub fn records(&self) -> Vec<[u64; 4]> {
        let cells = self.log.chunks_exact(4).take(self.records);
        cells
            .map(|cells| [cells[0], cells[1], cells[2], cells[3]])
            .collect()
    }
}
