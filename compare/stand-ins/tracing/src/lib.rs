//! Stand-in for `tracing`: messages are checked as formats and go nowhere.

#[macro_export]
macro_rules! debug {
    ($($message:tt)*) => {{ let _ = format_args!($($message)*); }};
}

#[macro_export]
macro_rules! info {
    ($($message:tt)*) => {{ let _ = format_args!($($message)*); }};
}

#[macro_export]
macro_rules! warn {
    ($($message:tt)*) => {{ let _ = format_args!($($message)*); }};
}

#[macro_export]
macro_rules! error {
    ($($message:tt)*) => {{ let _ = format_args!($($message)*); }};
}
