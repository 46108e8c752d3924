//! The original Rust pool, compiled as it is, with what it leans on made up.
//!
//! error.rs, stream.rs and memory_manager/ come from the original byte for byte (see build.rs).
//! Ours are `driver`, which stands for the card and its C functions, `common`, which stands for the
//! choice of a device, and `tables`, which shows the pool's tables.

pub mod common;
pub mod driver;
pub mod tables;

mod c_functions;

include!(concat!(env!("OUT_DIR"), "/tree.rs"));

// The numbers of the rules are the original's sizes and addresses.
const _: () = assert!(usize::BITS == 64);

/// One file of the original: its name, the text compiled, and our appendix at the end of it.
pub struct Compiled {
    pub name: &'static str,
    pub text: &'static str,
    pub appendix: &'static str,
}

/// Where the build found the original.
pub const SOURCE: &str = env!("ORIGINAL_SOURCE");

macro_rules! compiled {
    ($name:literal, $appendix:expr) => {
        Compiled {
            name: $name,
            text: include_str!(concat!(env!("OUT_DIR"), "/", $name)),
            appendix: $appendix,
        }
    };
}

pub const COMPILED: [Compiled; 5] = [
    compiled!("error.rs", ""),
    compiled!("stream.rs", include_str!("../appendix/stream.rs")),
    compiled!("memory_manager/mod.rs", include_str!("../appendix/mod.rs")),
    compiled!("memory_manager/cuda.rs", ""),
    compiled!(
        "memory_manager/vm_pool.rs",
        include_str!("../appendix/vm_pool.rs")
    ),
];
