//! The calls of `bucket.h` that the crate makes. `tests/header.rs` compares them with the header.

use crate::Seed;
use std::ptr::null_mut;

pub(crate) const OK: u32 = 0;
pub(crate) const PRESENT: u32 = 2;
pub(crate) const CLOSED: u32 = 4;
pub(crate) const EVICTED: u32 = 7;

/// A `bucket_handle`, which is freed when it is dropped. Only the library reads its fields.
///
/// The library takes one call at a time on a handle, look-ups too, so it isn't `Sync`.
#[repr(C)]
pub(crate) struct Handle {
    held: *mut u8,
    live: bool,
}

/// A `bucket_place`: how far a reading of all pairs has come.
#[repr(C)]
#[derive(Clone)]
pub(crate) struct Place {
    bucket: usize,
    pair: usize,
}

/// A `bucket_pair`; the key is 0 if it is a byte string.
#[repr(C)]
#[derive(Clone, Copy)]
pub(crate) struct Pair {
    pub(crate) key: u64,
    pub(crate) value: u64,
}

// SAFETY: `handles_cross` in crates/bucket_c/src/handle.rt proves that a handle may be sent to another thread. The
// types that hold it state what its values point to.
unsafe impl Send for Handle {}

// A panic leaves the handle valid: no call of the library calls back into the caller's code.
impl std::panic::RefUnwindSafe for Handle {}

impl Handle {
    pub(crate) const CLOSED: Handle = Handle { held: null_mut(), live: false };
}

impl Pair {
    pub(crate) const NONE: Pair = Pair { key: 0, value: 0 };
}

impl Place {
    pub(crate) const START: Place = Place { bucket: 0, pair: 0 };

    /// Reads pairs from this place on into a buffer, advances the place past them, and returns their number: as many
    /// as there is room for, or all that are left. It is `bucket_read` of the header.
    pub(crate) fn read(&mut self, handle: &Handle, out: &mut [Pair]) -> usize {
        let mut read = 0;
        while read < out.len() {
            let rest = &mut out[read..];
            let mut more = 0;
            // SAFETY: no other call uses the handle meanwhile, and the room is that of the rest.
            let code = unsafe { bucket_pairs_in(handle, self.bucket, self.pair, rest.as_mut_ptr(), rest.len(), &mut more) };
            if code != OK {
                break;
            }
            if more < rest.len() {
                *self = Place { bucket: self.bucket + 1, pair: 0 };
            } else {
                self.pair += more;
            }
            read += more;
        }
        read
    }
}

impl Drop for Handle {
    fn drop(&mut self) {
        // SAFETY: a handle is closed, or was opened by the library, and only the library changes it.
        unsafe { bucket_free(self) }
    }
}

unsafe extern "C" {
    pub(crate) fn bucket_version() -> u32;

    pub(crate) fn bucket_free(handle: *mut Handle);
    pub(crate) fn bucket_capacity(handle: *const Handle) -> usize;
    pub(crate) fn bucket_reserve(handle: *mut Handle, additional: usize) -> u32;
    pub(crate) fn bucket_shrink(handle: *mut Handle) -> u32;
    fn bucket_pairs_in(
        handle: *const Handle,
        bucket: usize,
        start: usize,
        out: *mut Pair,
        room: usize,
        count: *mut usize,
    ) -> u32;

    pub(crate) fn bucket_map_new(handle: *mut Handle, capacity: usize, seed: Seed) -> u32;
    pub(crate) fn bucket_map_get(handle: *const Handle, key: u64, value: *mut u64) -> u32;
    pub(crate) fn bucket_map_contains(handle: *const Handle, key: u64) -> u32;
    pub(crate) fn bucket_map_remove(handle: *mut Handle, key: u64, value: *mut u64) -> u32;
    pub(crate) fn bucket_map_get_or_insert(handle: *mut Handle, key: u64, value: u64, held: *mut u64) -> u32;

    pub(crate) fn bucket_text_map_new(handle: *mut Handle, capacity: usize, seed: Seed) -> u32;
    pub(crate) fn bucket_text_map_get(handle: *const Handle, key: *const u8, len: usize, value: *mut u64) -> u32;
    pub(crate) fn bucket_text_map_contains(handle: *const Handle, key: *const u8, len: usize) -> u32;
    pub(crate) fn bucket_text_map_remove(handle: *mut Handle, key: *const u8, len: usize, value: *mut u64) -> u32;
    pub(crate) fn bucket_text_map_get_or_insert(
        handle: *mut Handle,
        key: *const u8,
        len: usize,
        value: u64,
        held: *mut u64,
    ) -> u32;

    pub(crate) fn bucket_cache_new(handle: *mut Handle, minimum: usize, maximum: usize, seed: Seed) -> u32;
    pub(crate) fn bucket_cache_put(
        handle: *mut Handle,
        key: u64,
        value: u64,
        gone_key: *mut u64,
        gone_value: *mut u64,
    ) -> u32;
    pub(crate) fn bucket_cache_upsert(handle: *mut Handle, key: u64, value: u64, gone_key: *mut u64, before: *mut u64) -> u32;
    pub(crate) fn bucket_cache_get(handle: *mut Handle, key: u64, value: *mut u64) -> u32;
    pub(crate) fn bucket_cache_peek(handle: *const Handle, key: u64, value: *mut u64) -> u32;
    pub(crate) fn bucket_cache_contains(handle: *const Handle, key: u64) -> u32;
    pub(crate) fn bucket_cache_remove(handle: *mut Handle, key: u64, value: *mut u64) -> u32;

    pub(crate) fn bucket_text_cache_new(handle: *mut Handle, minimum: usize, maximum: usize, seed: Seed) -> u32;
    pub(crate) fn bucket_text_cache_put(
        handle: *mut Handle,
        key: *const u8,
        len: usize,
        value: u64,
        gone: *mut u8,
        gone_room: usize,
        gone_len: *mut usize,
        gone_value: *mut u64,
    ) -> u32;
    pub(crate) fn bucket_text_cache_upsert(
        handle: *mut Handle,
        key: *const u8,
        len: usize,
        value: u64,
        gone: *mut u8,
        gone_room: usize,
        gone_len: *mut usize,
        before: *mut u64,
    ) -> u32;
    pub(crate) fn bucket_text_cache_get(handle: *mut Handle, key: *const u8, len: usize, value: *mut u64) -> u32;
    pub(crate) fn bucket_text_cache_peek(handle: *const Handle, key: *const u8, len: usize, value: *mut u64) -> u32;
    pub(crate) fn bucket_text_cache_contains(handle: *const Handle, key: *const u8, len: usize) -> u32;
    pub(crate) fn bucket_text_cache_remove(handle: *mut Handle, key: *const u8, len: usize, value: *mut u64) -> u32;
}
