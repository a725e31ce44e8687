//! A `malloc` that can fail, for the crate and for the library that it links: it replaces glibc's.

use std::cell::Cell;
use std::ffi::{c_int, c_void};
use std::ptr::null_mut;

thread_local! {
    /// How many requests of this thread are granted before one fails.
    static GRANTED: Cell<usize> = const { Cell::new(usize::MAX) };
    /// Whether the requests after it fail too.
    static ALL_AFTER: Cell<bool> = const { Cell::new(false) };
    /// How many requests there were.
    static ASKED: Cell<usize> = const { Cell::new(0) };
    /// How many failed.
    static REFUSED: Cell<usize> = const { Cell::new(0) };
    /// How many blocks this thread has allocated, less those that it freed.
    static HELD: Cell<isize> = const { Cell::new(0) };
}

unsafe extern "C" {
    fn __libc_malloc(size: usize) -> *mut c_void;
    fn __libc_calloc(count: usize, size: usize) -> *mut c_void;
    fn __libc_realloc(block: *mut c_void, size: usize) -> *mut c_void;
    fn __libc_memalign(align: usize, size: usize) -> *mut c_void;
    fn __libc_free(block: *mut c_void);
}

fn is_granted() -> bool {
    ASKED.set(ASKED.get() + 1);
    let granted = GRANTED.get();
    if granted == 0 {
        REFUSED.set(REFUSED.get() + 1);
        if !ALL_AFTER.get() {
            GRANTED.set(usize::MAX);
        }
        return false;
    }
    if granted != usize::MAX {
        GRANTED.set(granted - 1);
    }
    true
}

fn counted(take: impl FnOnce() -> *mut c_void) -> *mut c_void {
    let block = if is_granted() { take() } else { null_mut() };
    HELD.set(HELD.get() + !block.is_null() as isize);
    block
}

#[no_mangle]
unsafe extern "C" fn malloc(size: usize) -> *mut c_void {
    counted(|| unsafe { __libc_malloc(size) })
}

#[no_mangle]
unsafe extern "C" fn calloc(count: usize, size: usize) -> *mut c_void {
    counted(|| unsafe { __libc_calloc(count, size) })
}

#[no_mangle]
unsafe extern "C" fn realloc(block: *mut c_void, size: usize) -> *mut c_void {
    if block.is_null() {
        return counted(|| unsafe { __libc_malloc(size) });
    }
    if is_granted() { unsafe { __libc_realloc(block, size) } } else { null_mut() }
}

#[no_mangle]
unsafe extern "C" fn posix_memalign(out: *mut *mut c_void, align: usize, size: usize) -> c_int {
    let block = counted(|| unsafe { __libc_memalign(align, size) });
    if block.is_null() {
        return 12;
    }
    unsafe { *out = block };
    0
}

#[no_mangle]
unsafe extern "C" fn aligned_alloc(align: usize, size: usize) -> *mut c_void {
    counted(|| unsafe { __libc_memalign(align, size) })
}

#[no_mangle]
unsafe extern "C" fn free(block: *mut c_void) {
    HELD.set(HELD.get() - !block.is_null() as isize);
    unsafe { __libc_free(block) }
}

/// Makes a call whose first requests are granted, and then one fails, or all. Returns the call's result, and how many
/// requests failed.
pub fn granting<T>(granted: usize, all_after: bool, call: impl FnOnce() -> T) -> (T, usize) {
    REFUSED.set(0);
    ALL_AFTER.set(all_after);
    GRANTED.set(granted);
    let answer = call();
    GRANTED.set(usize::MAX);
    (answer, REFUSED.get())
}

/// How many requests a call makes.
pub fn asked(call: impl FnOnce()) -> usize {
    let before = ASKED.get();
    call();
    ASKED.get() - before
}

/// How many blocks this thread holds.
pub fn held() -> isize {
    HELD.get()
}
