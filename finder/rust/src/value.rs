//! What the library's calls are made on: a pool, or the manager above one.

use crate::{
    ffi::{self, SmallBuffer, BYTES},
    Call,
};

/// What one run of the library hands back.
pub(crate) struct Ran<V> {
    pub value: V,
    pub answer: u64,
    pub first: u64,
    pub second: u64,
    pub records: usize,
}

pub(crate) trait Value: Copy {
    /// Nothing is reserved, and every number is 0.
    fn closed() -> Self;

    fn pool(&self) -> &ffi::Pool;

    /// The small buffers that are held.
    fn small(&self) -> &[SmallBuffer];

    /// Runs a call once, on the answers lent.
    fn run(&self, call: Call, answers: &[u64], log: &mut [u64]) -> Ran<Self>;

    /// What the pool is asked for in a call; none where it isn't asked.
    fn asked(&self, call: Call) -> Option<Call>;
}

impl Value for ffi::Pool {
    fn closed() -> Self {
        Self::closed()
    }

    fn pool(&self) -> &ffi::Pool {
        self
    }

    fn small(&self) -> &[SmallBuffer] {
        &[]
    }

    fn run(&self, call: Call, answers: &[u64], log: &mut [u64]) -> Ran<Self> {
        let reply = match call {
            Call::Open(config) => ffi::open(
                config.granularity,
                config.override_size,
                config.va_size,
                config.initial_pages,
                config.initial_stream,
                answers,
                log,
            ),
            Call::Malloc { bytes, stream } => ffi::malloc(self, bytes, stream, answers, log),
            Call::Free { address } => ffi::free(self, address, answers, log),
            Call::Close => ffi::close(self, answers, log),
        };
        Ran {
            value: reply.pool,
            answer: reply.answer,
            first: reply.first,
            second: reply.second,
            records: reply.records,
        }
    }

    fn asked(&self, call: Call) -> Option<Call> {
        Some(call)
    }
}

impl Value for ffi::Manager {
    fn closed() -> Self {
        Self::closed()
    }

    fn pool(&self) -> &ffi::Pool {
        &self.pool
    }

    fn small(&self) -> &[SmallBuffer] {
        self.small.entries()
    }

    fn run(&self, call: Call, answers: &[u64], log: &mut [u64]) -> Ran<Self> {
        let reply = match call {
            Call::Open(config) => ffi::manager::open(
                config.granularity,
                config.override_size,
                config.va_size,
                config.initial_pages,
                config.initial_stream,
                answers,
                log,
            ),
            Call::Malloc { bytes, stream } => {
                ffi::manager::malloc(self, bytes, stream, answers, log)
            }
            Call::Free { address } => ffi::manager::free(self, address, answers, log),
            Call::Close => ffi::manager::close(self, answers, log),
        };
        Ran {
            value: reply.manager,
            answer: reply.answer,
            first: reply.first,
            second: reply.second,
            records: reply.records,
        }
    }

    fn asked(&self, call: Call) -> Option<Call> {
        match call {
            Call::Malloc { bytes, stream } => {
                let bytes = in_pages(self.pool.page, bytes)?;
                Some(Call::Malloc { bytes, stream })
            }
            Call::Free { address } => {
                let is_small = self.small().iter().any(|held| held.pointer == address);
                (!is_small).then_some(call)
            }
            Call::Open(_) | Call::Close => Some(call),
        }
    }
}

/// A size in whole pages (docs/RULES.md 12.2); none where it is 0, a small buffer's, or too large.
fn in_pages(page: u64, bytes: u64) -> Option<u64> {
    if bytes == 0 || bytes < page {
        return None;
    }
    let rounded = match page {
        // Of a closed manager, which refuses it.
        0 => bytes,
        page => bytes.checked_next_multiple_of(page)?,
    };
    (rounded <= BYTES).then_some(rounded)
}

#[cfg(test)]
mod tests {
    use super::in_pages;

    #[test]
    fn sizes_are_rounded_up() {
        for (page, bytes, rounded) in [
            (4, 0, None),
            (4, 1, None),
            (4, 3, None),
            (4, 4, Some(4)),
            (4, 5, Some(8)),
            (4, 8, Some(8)),
            (4, (1 << 63) - 3, Some(1 << 63)),
            (4, 1 << 63, Some(1 << 63)),
            (4, (1 << 63) + 1, None),
            (3, 1 << 63, None),
            (3, (1 << 63) - 2, Some((1 << 63) - 2)),
            (4, u64::MAX, None),
            (1, u64::MAX, None),
            (1, 1, Some(1)),
            (1 << 63, 1, None),
            (0, 0, None),
            (0, 5, Some(5)),
        ] {
            assert_eq!(in_pages(page, bytes), rounded, "{bytes} in pages of {page}");
        }
    }
}
