//! The smallest session on which a program still differs from the Rust.

use super::subject::{calls_of, calls_until_difference, Form, Prints, Said, Subject};

/// A session on which a program differs. The session is the Rust's own replay of itself.
pub struct Found {
    pub calls: Vec<Vec<u8>>,
    /// What the program was given of it.
    pub given: Vec<u8>,
    pub wanted: Vec<u8>,
    pub said: Said,
}

impl Found {
    pub fn calls_until_difference(&self) -> usize {
        calls_until_difference(&self.wanted, &self.said.out)
    }
}

/// The Rust that says what is wanted: of a trace, and of the tables.
pub struct Wanted<'a> {
    pub trace: &'a Subject,
    pub tables: &'a Subject,
}

pub struct Shrinker<'a> {
    pub wanted: Wanted<'a>,
    pub subject: &'a Subject,
    pub form: Form,
}

impl Shrinker<'_> {
    /// Drops calls from the end, then runs of calls and at last single ones, as long as the program
    /// differs on what is left. `None` where it does not differ on the whole when asked again.
    pub fn shrink(&self, calls: &[Vec<u8>]) -> Result<Option<Found>, String> {
        let Some(found) = self.look(calls)? else {
            return Ok(None);
        };
        let mut best = self.cut(found)?;
        let mut size = best.calls.len().div_ceil(2);
        loop {
            let dropped = self.drop_runs(&mut best, size)?;
            if size > 1 {
                size /= 2;
            } else if !dropped {
                return Ok(Some(best));
            }
        }
    }

    /// Tries to drop each run of `size` calls, from the last; the opening stays.
    fn drop_runs(&self, best: &mut Found, size: usize) -> Result<bool, String> {
        let mut dropped = false;
        let mut end = best.calls.len();
        while end > 1 {
            let start = end.saturating_sub(size).max(1);
            let rest = [&best.calls[..start], &best.calls[end..]].concat();
            if let Some(found) = self.look(&rest)? {
                *best = self.cut(found)?;
                dropped = true;
            }
            end = start.min(best.calls.len());
        }
        Ok(dropped)
    }

    /// Without the calls after the difference, if it stays.
    fn cut(&self, found: Found) -> Result<Found, String> {
        let until = found.calls_until_difference();
        let shorter = self.look(&found.calls[..until])?;
        Ok(shorter.unwrap_or(found))
    }

    /// What the program does with calls that the Rust has an answer to.
    fn look(&self, calls: &[Vec<u8>]) -> Result<Option<Found>, String> {
        let replayed = self.wanted.trace.ask(&calls.concat(), u64::MAX)?;
        if !replayed.good {
            return Ok(None);
        }
        let trace = replayed.out;
        let wanted = match self.subject.prints {
            Prints::Trace => trace.clone(),
            Prints::Tables => self.wanted.tables.ask(&trace, u64::MAX)?.out,
        };
        let given = self.form.of(&trace);
        let said = self.subject.differs(&given, &wanted)?;
        Ok(said.map(|said| Found {
            calls: calls_of(&trace),
            given,
            wanted,
            said,
        }))
    }
}
