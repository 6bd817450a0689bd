//! How often memory was taken. The linker sends each call of these functions of C here, from either side (`build.rs`).

use std::ffi::{c_int, c_void};
use std::sync::atomic::{AtomicU64, Ordering};

static CALLS: AtomicU64 = AtomicU64::new(0);

/// The calls up to now.
pub fn calls() -> u64 {
    CALLS.load(Ordering::Relaxed)
}

fn count() {
    CALLS.fetch_add(1, Ordering::Relaxed);
}

unsafe extern "C" {
    fn __real_malloc(size: usize) -> *mut c_void;
    fn __real_calloc(count: usize, size: usize) -> *mut c_void;
    fn __real_realloc(at: *mut c_void, size: usize) -> *mut c_void;
    fn __real_posix_memalign(at: *mut *mut c_void, align: usize, size: usize) -> c_int;
    fn __real_mmap(
        at: *mut c_void,
        len: usize,
        prot: c_int,
        flags: c_int,
        fd: c_int,
        offset: i64,
    ) -> *mut c_void;
}

// SAFETY of each: it does what it stands for, with the arguments that it was given.

#[unsafe(no_mangle)]
unsafe extern "C" fn __wrap_malloc(size: usize) -> *mut c_void {
    count();
    unsafe { __real_malloc(size) }
}

#[unsafe(no_mangle)]
unsafe extern "C" fn __wrap_calloc(number: usize, size: usize) -> *mut c_void {
    count();
    unsafe { __real_calloc(number, size) }
}

#[unsafe(no_mangle)]
unsafe extern "C" fn __wrap_realloc(at: *mut c_void, size: usize) -> *mut c_void {
    count();
    unsafe { __real_realloc(at, size) }
}

#[unsafe(no_mangle)]
unsafe extern "C" fn __wrap_posix_memalign(at: *mut *mut c_void, align: usize, size: usize) -> c_int {
    count();
    unsafe { __real_posix_memalign(at, align, size) }
}

#[unsafe(no_mangle)]
unsafe extern "C" fn __wrap_mmap(
    at: *mut c_void,
    len: usize,
    prot: c_int,
    flags: c_int,
    fd: c_int,
    offset: i64,
) -> *mut c_void {
    count();
    unsafe { __real_mmap(at, len, prot, flags, fd, offset) }
}

#[cfg(test)]
mod tests {
    use super::calls;

    #[test]
    fn a_box_is_counted() {
        let before = calls();
        std::hint::black_box(Box::new([0u8; 4000]));
        assert!(calls() > before);
    }
}
