//! Stand-in for `bytesize`: as much as the pool's messages use.

use std::fmt;

pub struct ByteSize(u64);

impl ByteSize {
    pub fn b(bytes: u64) -> Self {
        Self(bytes)
    }
}

impl fmt::Display for ByteSize {
    fn fmt(&self, f: &mut fmt::Formatter<'_>) -> fmt::Result {
        write!(f, "{} B", self.0)
    }
}
