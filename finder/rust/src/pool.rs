//! The pool, with its value and what its calls need kept out of sight.

use std::fmt;

use crate::{
    ffi,
    kept::{Interrupted, Kept},
    Call, Config, Driver, Refusal,
};

/// A pool that is open, stopped or poisoned. It owns no driver, so dropping it gives nothing back:
/// close it.
#[must_use = "a pool that is dropped gives nothing back: close it"]
pub struct Pool(Kept<ffi::Pool>);

/// What malloc hands out.
#[derive(Clone, Copy, Debug, PartialEq, Eq)]
pub struct Buffer {
    /// Where it starts.
    pub address: u64,
    /// Its bytes, as asked for; of a manager in whole pages, if they are a page or more.
    pub size: u64,
}

/// What free took back.
#[derive(Clone, Copy, Debug, PartialEq, Eq)]
pub struct Freed {
    /// The buffer's bytes.
    pub size: u64,
    /// The stream that it was asked for on.
    pub stream: u64,
}

impl Pool {
    /// Reserves a first range and makes the initial pages. If that fails, what was taken is given
    /// back at once. If the driver panics, there is no pool, and nothing is given back.
    pub fn open(driver: &mut dyn Driver, config: Config) -> Result<Self, Refusal> {
        Kept::open(driver, config).map(Self)
    }

    /// A buffer of `bytes`, a multiple of the page size, for work on a stream.
    pub fn malloc(
        &mut self,
        driver: &mut dyn Driver,
        bytes: u64,
        stream: u64,
    ) -> Result<Buffer, Refusal> {
        let served = self.0.call(driver, Call::Malloc { bytes, stream })?;
        let (address, size) = (served.first, served.second);
        Ok(Buffer { address, size })
    }

    /// Gives a buffer back. Work on its stream may still use it; others wait for that, or take
    /// something else.
    pub fn free(&mut self, driver: &mut dyn Driver, address: u64) -> Result<Freed, Refusal> {
        let served = self.0.call(driver, Call::Free { address })?;
        let (size, stream) = (served.first, served.second);
        Ok(Freed { size, stream })
    }

    /// Gives everything back, live buffers too, and tells how many of the driver calls failed. Of a
    /// poisoned pool that is what it held before the call that was interrupted.
    pub fn close(mut self, driver: &mut dyn Driver) -> Result<u64, Refusal> {
        let served = self.0.call(driver, Call::Close)?;
        Ok(served.first)
    }

    /// The page size: sizes are its multiples.
    pub fn page_size(&self) -> u64 {
        self.value().page
    }

    /// Whether a driver failure or an incredible answer stopped the pool: then only close is
    /// served.
    pub fn is_stopped(&self) -> bool {
        self.0.is_stopped()
    }

    /// The call in which the driver panicked. The pool is poisoned then: malloc and free are
    /// refused, and only close is served.
    ///
    /// The pool is as it was before that call, while the card has seen a part of it. What the
    /// records reserved, created or mapped no close gives back. And driver calls of the close may
    /// fail: an unmap of what the call had unmapped, a giveback of a range in which it had mapped.
    pub fn interrupted(&self) -> Option<Interrupted<'_>> {
        self.0.interrupted()
    }

    /// The pool value, for a look at its tables.
    pub fn value(&self) -> &ffi::Pool {
        &self.0.value
    }
}

/// How full it is: the tables themselves are long.
impl fmt::Debug for Pool {
    fn fmt(&self, out: &mut fmt::Formatter) -> fmt::Result {
        let value = self.value();
        let mut fields = out.debug_struct("Pool");
        add_fields(&mut fields, value);
        let begun = self.interrupted().map(|interrupted| interrupted.call);
        fields.field("begun", &begun).finish_non_exhaustive()
    }
}

/// Those of a pool value.
pub(crate) fn add_fields(fields: &mut fmt::DebugStruct, value: &ffi::Pool) {
    fields
        .field("state", &value.state)
        .field("page", &value.page)
        .field("va", &value.va)
        .field("free", &value.free.count)
        .field("live", &value.live.count)
        .field("holes", &value.holes.count)
        .field("zombies", &value.zombies.count)
        .field("pages", &value.pages.count)
        .field("roots", &value.roots.count);
}
