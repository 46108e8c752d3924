//! The C functions that the original declares. Those that the pool never reaches say that they are
//! not supported; error names are left out.

use std::{
    ffi::{c_char, c_int, c_void},
    ptr,
};

use crate::driver::{self, Word};

const SUCCESS: i32 = 0;
const NOT_SUPPORTED: i32 = 801;

#[no_mangle]
extern "C" fn _vpmm_check_support(_device: i32) -> i32 {
    SUCCESS
}

#[no_mangle]
extern "C" fn _vpmm_min_granularity(_device: i32, out: &mut usize) -> i32 {
    *out = driver::granularity();
    SUCCESS
}

#[no_mangle]
extern "C" fn _vpmm_reserve(size: usize, _align: usize, out_va: &mut u64) -> i32 {
    driver::call_for_value(Word::Reserve, size as u64, out_va)
}

#[no_mangle]
extern "C" fn _vpmm_release_va(base: u64, size: usize) -> i32 {
    driver::call(Word::Giveback, base, size as u64)
}

#[no_mangle]
extern "C" fn _vpmm_create_physical(_device: i32, bytes: usize, out_h: &mut u64) -> i32 {
    driver::call_for_value(Word::Create, bytes as u64, out_h)
}

#[no_mangle]
extern "C" fn _vpmm_map(va: u64, _bytes: usize, h: u64) -> i32 {
    driver::call(Word::Map, va, h)
}

#[no_mangle]
extern "C" fn _vpmm_set_access(va: u64, bytes: usize, _device: i32) -> i32 {
    driver::call(Word::Access, va, bytes as u64)
}

#[no_mangle]
extern "C" fn _vpmm_unmap(va: u64, bytes: usize) -> i32 {
    driver::call(Word::Unmap, va, bytes as u64)
}

#[no_mangle]
extern "C" fn _vpmm_release(h: u64) -> i32 {
    driver::call(Word::Release, h, 0)
}

#[no_mangle]
extern "C" fn cudaDeviceSynchronize() -> i32 {
    driver::call(Word::Sync, 0, 0)
}

#[no_mangle]
extern "C" fn cudaStreamCreateWithFlags(stream: &mut *mut c_void, _flags: u32) -> i32 {
    *stream = driver::make_stream();
    SUCCESS
}

#[no_mangle]
extern "C" fn cudaStreamDestroy(_stream: *mut c_void) -> i32 {
    SUCCESS
}

#[no_mangle]
extern "C" fn cudaStreamSynchronize(stream: *mut c_void) -> i32 {
    driver::call(Word::Sync, driver::stream_number(stream), 0)
}

#[no_mangle]
extern "C" fn cudaStreamWaitEvent(stream: *mut c_void, event: *mut c_void, _flags: u32) -> i32 {
    driver::call(
        Word::Wait,
        driver::event_id(event),
        driver::stream_number(stream),
    )
}

#[no_mangle]
extern "C" fn cudaEventCreate(event: &mut *mut c_void) -> i32 {
    *event = driver::make_event();
    SUCCESS
}

#[no_mangle]
extern "C" fn cudaEventRecord(event: *mut c_void, stream: *mut c_void) -> i32 {
    driver::record(event, stream)
}

#[no_mangle]
extern "C" fn cudaEventQuery(event: *mut c_void) -> i32 {
    driver::query(event)
}

#[no_mangle]
extern "C" fn cudaEventDestroy(_event: *mut c_void) -> i32 {
    SUCCESS
}

#[no_mangle]
extern "C" fn cudaEventSynchronize(_event: *mut c_void) -> i32 {
    NOT_SUPPORTED
}

#[no_mangle]
extern "C" fn cudaEventElapsedTime(_ms: *mut f32, _start: *mut c_void, _end: *mut c_void) -> i32 {
    NOT_SUPPORTED
}

#[no_mangle]
extern "C" fn cudaMallocAsync(out: &mut *mut c_void, size: usize, stream: *mut c_void) -> i32 {
    let mut pointer = 0;
    let code = driver::small(size as u64, stream, &mut pointer);
    if code == SUCCESS {
        *out = ptr::without_provenance_mut(pointer as usize);
    }
    code
}

#[no_mangle]
extern "C" fn cudaFreeAsync(pointer: *mut c_void, stream: *mut c_void) -> i32 {
    driver::drop_small(pointer.addr() as u64, stream)
}

#[no_mangle]
extern "C" fn cudaMemGetInfo(free: &mut usize, total: &mut usize) -> i32 {
    (*free, *total) = (0, 0);
    SUCCESS
}

#[no_mangle]
extern "C" fn cudaGetErrorString(_error: c_int) -> *const c_char {
    ptr::null()
}

#[no_mangle]
extern "C" fn cudaGetErrorName(_error: c_int) -> *const c_char {
    ptr::null()
}
