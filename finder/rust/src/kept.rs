//! A pool or a manager: its value and what its calls need, and each call from its begin to its end.

use crate::{
    ahead::Ahead,
    ffi::state,
    value::{Ran, Value},
    Call, Config, Driver, Happened, Record, Refusal,
};

pub(crate) struct Kept<V> {
    /// Some 22 KB, and a manager's 26 KB.
    pub value: Box<V>,
    ahead: Ahead,
    /// The call that was begun and has not ended.
    begun: Option<Call>,
}

/// A call that the driver's panic has left halfway.
#[derive(Clone, Copy, Debug, PartialEq, Eq)]
pub struct Interrupted<'a> {
    /// The call.
    pub call: Call,
    /// Its driver calls that were answered, in order. Whether the card has made the one that
    /// panicked only the driver can tell.
    pub records: &'a [Record],
}

/// A call that was served: its two values, and how many driver calls failed and did not end it.
pub(crate) struct Served {
    pub first: u64,
    pub second: u64,
    pub failures: u64,
}

impl<V: Value> Kept<V> {
    /// An opening that fails gives back at once what it took.
    pub fn open(driver: &mut dyn Driver, config: Config) -> Result<Self, Refusal> {
        let mut kept = Self {
            value: Box::new(V::closed()),
            ahead: Ahead::new(),
            begun: None,
        };
        match kept.call(driver, Call::Open(config)) {
            Ok(_) => Ok(kept),
            Err(refusal) => {
                kept.give_up(driver);
                Err(refusal)
            }
        }
    }

    /// Runs a call to its end.
    pub fn call(&mut self, driver: &mut dyn Driver, call: Call) -> Result<Served, Refusal> {
        if self.begun.is_some() && call != Call::Close {
            return Err(Refusal::Poisoned);
        }
        self.begun = Some(call);
        let asked = self.value.asked(call);
        let Ran {
            value,
            answer,
            first,
            second,
            ..
        } = self.ahead.settle(driver, &*self.value, call);
        *self.value = value;
        self.begun = None;
        let happened = Happened {
            call,
            asked,
            records: self.ahead.made(),
            answer,
            first,
            second,
            runs: self.ahead.runs(),
        };
        let mut failures = 0;
        for failed in happened.failures() {
            driver.passed_over(*failed);
            failures += 1;
        }
        driver.happened(&happened);
        match Refusal::of(&happened) {
            None => Ok(Served {
                first,
                second,
                failures,
            }),
            Some(refusal) => Err(refusal),
        }
    }

    pub fn is_stopped(&self) -> bool {
        self.value.pool().state == state::STOPPED
    }

    pub fn interrupted(&self) -> Option<Interrupted<'_>> {
        let call = self.begun?;
        let records = self.ahead.made();
        Some(Interrupted { call, records })
    }

    /// After an opening that failed: closes what stands, if anything does.
    fn give_up(mut self, driver: &mut dyn Driver) {
        if self.value.pool().state != state::CLOSED {
            // A close of a stopped pool is always served, and the opening's refusal is what the
            // caller is told.
            let _ = self.call(driver, Call::Close);
        }
    }
}
