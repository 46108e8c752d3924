//! libbench_passing.a: calls that do nothing but take the pool by value and hand it back.

use caldarimpu::ffi::Pool;

#[repr(C)]
pub struct Passed {
    pub pool: Pool,
    pub sound: bool,
}

#[link(name = "bench_passing", kind = "static")]
extern "C" {
    fn measured_passed(pool: Pool) -> Passed;
    fn measured_looked(pool: Pool) -> Passed;
    fn measured_tested(pool: Pool) -> Passed;
}

pub fn passed(pool: &Pool) -> Passed {
    // SAFETY: the structs are the library's own, and it is proved for every pool value.
    unsafe { measured_passed(*pool) }
}

pub fn looked(pool: &Pool) -> Passed {
    // SAFETY: as above.
    unsafe { measured_looked(*pool) }
}

pub fn tested(pool: &Pool) -> Passed {
    // SAFETY: as above.
    unsafe { measured_tested(*pool) }
}
