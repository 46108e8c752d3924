//! The manager's calls: as the pool's, with sizes in bytes.

use super::{library, Manager, ManagerReply};

/// Opens a manager.
pub fn open(
    granularity: u64,
    override_size: u64,
    va_size: u64,
    initial_pages: u64,
    initial_stream: u64,
    answers: &[u64],
    log: &mut [u64],
) -> ManagerReply {
    // SAFETY: both slices live through the call, and the structs are the library's own.
    unsafe {
        library::manager_open(
            granularity,
            override_size,
            va_size,
            initial_pages,
            initial_stream,
            answers.as_ptr(),
            answers.len(),
            log.as_mut_ptr(),
            log.len(),
        )
    }
}

/// Asks for a buffer.
pub fn malloc(
    manager: &Manager,
    bytes: u64,
    stream: u64,
    answers: &[u64],
    log: &mut [u64],
) -> ManagerReply {
    let (lent, pairs) = (answers.as_ptr(), answers.len());
    // SAFETY: as for open.
    unsafe {
        library::manager_malloc(
            *manager,
            bytes,
            stream,
            lent,
            pairs,
            log.as_mut_ptr(),
            log.len(),
        )
    }
}

/// Gives a buffer back.
pub fn free(manager: &Manager, address: u64, answers: &[u64], log: &mut [u64]) -> ManagerReply {
    let (lent, pairs) = (answers.as_ptr(), answers.len());
    // SAFETY: as for open.
    unsafe { library::manager_free(*manager, address, lent, pairs, log.as_mut_ptr(), log.len()) }
}

/// Gives everything back.
pub fn close(manager: &Manager, answers: &[u64], log: &mut [u64]) -> ManagerReply {
    let (lent, pairs) = (answers.as_ptr(), answers.len());
    // SAFETY: as for open.
    unsafe { library::manager_close(*manager, lent, pairs, log.as_mut_ptr(), log.len()) }
}

/// Sets highest to current.
pub fn reset_highest(manager: &Manager) -> Manager {
    // SAFETY: the struct is the library's own.
    unsafe { library::manager_reset_highest(*manager) }
}
