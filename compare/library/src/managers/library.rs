//! The library's layer, as a program in Rust uses it: the package's `Manager`.

use caldarimpu::{Config, Manager, Refusal};
use compare::{manager::State, session::Call};
use original::tables::Small;

use super::layer::{Layer, Ran};
use crate::{ours::Card, tables::tables_of};

/// There from its opening to its close.
#[derive(Default)]
pub struct Library(Option<Manager>);

impl Layer for Library {
    fn run(&mut self, card: &mut Card, call: Call) -> Result<Ran, String> {
        let values = self.values(card, call);
        let told = card.take_happened().ok_or("the call is not told")?;
        let result = told.outcome.result;
        let agrees = match values {
            // The package counts the small buffers of a close that failed too.
            Ok(_) if call == Call::Close => result.answer == 0,
            Ok(values) => result.answer == 0 && values == (result.first, result.second),
            Err(refusal) => refusal.number() == Some(result.answer),
        };
        if !agrees {
            return Err(format!("{result:?} is given as {values:?}"));
        }
        Ok(Ran {
            result,
            trace: Some(told.text),
            runs: told.runs,
        })
    }

    fn reset_highest(&mut self) {
        self.manager().reset_highest();
    }

    fn state(&self) -> Option<State> {
        let manager = self.0.as_ref()?;
        let value = manager.value();
        let small = value.small.entries().iter().map(|small| Small {
            pointer: small.pointer,
            size: small.size,
            stream: small.stream,
        });
        let mut small: Vec<Small> = small.collect();
        small.sort();
        Some(State {
            tables: tables_of(&value.pool),
            small,
            current: manager.current(),
            highest: manager.highest(),
        })
    }
}

impl Library {
    /// Runs a call and gives its two values, or of a close how many driver calls failed.
    fn values(&mut self, card: &mut Card, call: Call) -> Result<(u64, u64), Refusal> {
        match call {
            Call::Open {
                page_size,
                va_size,
                initial_pages,
            } => {
                let config = Config {
                    initial_pages,
                    ..Config::new(page_size, va_size)
                };
                let manager = self.0.insert(Manager::open(card, config)?);
                Ok((manager.value().pool.roots.cells[0], manager.page_size()))
            }
            Call::Malloc { bytes, stream } => {
                let buffer = self.manager().malloc(card, bytes, stream)?;
                Ok((buffer.address, buffer.size))
            }
            Call::Free { address } => {
                let freed = self.manager().free(card, address)?;
                Ok((freed.size, freed.stream))
            }
            Call::Close => {
                let manager = self.0.take().expect("the manager is open");
                Ok((manager.close(card)?, 0))
            }
        }
    }

    fn manager(&mut self) -> &mut Manager {
        self.0.as_mut().expect("the manager is open")
    }
}
