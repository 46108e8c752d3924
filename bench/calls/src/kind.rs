//! Kinds of calls, which are listed apart.

use compare::session::Call;
use original::driver::Word;

#[derive(Clone, Copy, Debug, PartialEq, Eq, PartialOrd, Ord)]
pub enum Kind {
    Fit,
    MakeRoom,
    Free,
    Close,
    Refused,
    Open,
}

impl Kind {
    /// By the call, its answer's number and the words of its records.
    pub fn of(call: Call, answer: u64, words: &[Word]) -> Self {
        match call {
            Call::Open { .. } => Self::Open,
            Call::Malloc { .. } if answer != 0 => Self::Refused,
            Call::Malloc { .. } if words.contains(&Word::Map) => Self::MakeRoom,
            Call::Malloc { .. } => Self::Fit,
            Call::Free { .. } => Self::Free,
            Call::Close => Self::Close,
        }
    }

    pub fn name(self) -> &'static str {
        match self {
            Self::Fit => "malloc, fit",
            Self::MakeRoom => "malloc, make room",
            Self::Free => "free",
            Self::Close => "close",
            Self::Refused => "malloc, refused",
            Self::Open => "open",
        }
    }
}
