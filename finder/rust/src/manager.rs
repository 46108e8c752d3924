//! The manager: the pool with sizes in bytes, and the small buffers beside it.

use std::fmt;

use crate::{
    ffi,
    kept::{Interrupted, Kept},
    pool::add_fields,
    Buffer, Call, Config, Driver, Freed, Refusal,
};

/// A manager that is open, stopped or poisoned. A size of a page or more is rounded up to whole
/// pages, which its pool serves. A smaller one is the driver's to serve, by
/// [`Driver::small`](crate::Driver::small). It owns no driver, so dropping it gives nothing back:
/// close it.
#[must_use = "a manager that is dropped gives nothing back: close it"]
pub struct Manager(Kept<ffi::Manager>);

impl Manager {
    /// Opens the pool, as [`Pool::open`](crate::Pool::open) does.
    pub fn open(driver: &mut dyn Driver, config: Config) -> Result<Self, Refusal> {
        Kept::open(driver, config).map(Self)
    }

    /// A buffer of `bytes`, from 1 on, for work on a stream.
    ///
    /// A [`Refusal::DriverFailed`] for a small buffer changes nothing, and the manager goes on.
    pub fn malloc(
        &mut self,
        driver: &mut dyn Driver,
        bytes: u64,
        stream: u64,
    ) -> Result<Buffer, Refusal> {
        let served = self.0.call(driver, Call::Malloc { bytes, stream })?;
        let (address, size) = (served.first, served.second);
        Ok(Buffer { address, size })
    }

    /// Gives a buffer back, of the pool or a small one.
    ///
    /// A [`Refusal::DriverFailed`] for a small buffer changes nothing: it is still held, and the
    /// manager goes on.
    pub fn free(&mut self, driver: &mut dyn Driver, address: u64) -> Result<Freed, Refusal> {
        let served = self.0.call(driver, Call::Free { address })?;
        let (size, stream) = (served.first, served.second);
        Ok(Freed { size, stream })
    }

    /// Drops the small buffers that are held, in the order in which they came, then closes the
    /// pool, and tells how many of the driver calls failed, of both. Of a poisoned manager that is
    /// what it held before the call that was interrupted.
    pub fn close(mut self, driver: &mut dyn Driver) -> Result<u64, Refusal> {
        let served = self.0.call(driver, Call::Close)?;
        Ok(served.failures)
    }

    /// The bytes held: of small buffers as asked for, of others in whole pages.
    pub fn current(&self) -> u64 {
        self.value().current
    }

    /// The most that ever were, since the opening or the last reset.
    pub fn highest(&self) -> u64 {
        self.value().highest
    }

    /// Lets the highest count from what is held now.
    pub fn reset_highest(&mut self) {
        *self.0.value = ffi::manager::reset_highest(&self.0.value);
    }

    /// The page size: a buffer of fewer bytes is a small one.
    pub fn page_size(&self) -> u64 {
        self.value().pool.page
    }

    /// Whether a driver failure or an incredible answer stopped the manager: then only close is
    /// served. A failure for a small buffer does not.
    pub fn is_stopped(&self) -> bool {
        self.0.is_stopped()
    }

    /// The call in which the driver panicked: as [`Pool::interrupted`](crate::Pool::interrupted). A
    /// call for a small buffer has one driver call, so that only the driver can tell whether it was
    /// made.
    pub fn interrupted(&self) -> Option<Interrupted<'_>> {
        self.0.interrupted()
    }

    /// The manager's value, for a look at its tables.
    pub fn value(&self) -> &ffi::Manager {
        &self.0.value
    }
}

/// How full it is.
impl fmt::Debug for Manager {
    fn fmt(&self, out: &mut fmt::Formatter) -> fmt::Result {
        let value = self.value();
        let mut fields = out.debug_struct("Manager");
        add_fields(&mut fields, &value.pool);
        let begun = self.interrupted().map(|interrupted| interrupted.call);
        fields
            .field("small", &value.small.count)
            .field("current", &value.current)
            .field("highest", &value.highest)
            .field("begun", &begun)
            .finish_non_exhaustive()
    }
}
