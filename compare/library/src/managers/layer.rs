//! What a layer under test must do.

use compare::{
    manager::State,
    session::{Answered, Call},
};

use crate::ours::Card;

pub trait Layer: Default {
    /// Runs a call to its end, or says what is wrong with how it is told.
    fn run(&mut self, card: &mut Card, call: Call) -> Result<Ran, String>;

    fn reset_highest(&mut self);

    /// `None` before the opening and after the close.
    fn state(&self) -> Option<State>;
}

/// A call that has ended.
pub struct Ran {
    pub result: Answered,
    /// Its lines, if the layer prints any.
    pub trace: Option<String>,
    /// How often the library was run.
    pub runs: u64,
}
