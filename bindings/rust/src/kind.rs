//! The two families of tables, each with a kind for words and one for texts.

use crate::ffi::*;
use crate::key::sealed::Form;
use crate::Seed;

/// The calls that both families have. On a closed handle each returns `CLOSED`.
pub(crate) trait Kind: Copy {
    /// Opens a closed handle.
    fn open(self, is_text: bool, handle: &mut Handle, seed: Seed) -> u32;
    /// Outputs a key's value, and touches no pair.
    fn find(handle: &Handle, key: Form<'_>, value: &mut u64) -> u32;
    fn contains(handle: &Handle, key: Form<'_>) -> u32;
    /// Removes a pair, and outputs its value.
    fn remove(handle: &mut Handle, key: Form<'_>, value: &mut u64) -> u32;
}

/// Maps, whose first array has room for that many pairs.
#[derive(Clone, Copy)]
pub(crate) struct Maps {
    pub capacity: usize,
}

/// Caches with a minimum and a maximum number of slots.
#[derive(Clone, Copy)]
pub(crate) struct Caches {
    pub minimum: usize,
    pub maximum: usize,
}

// SAFETY, for each call: a declaration matches its export, a handle is closed or was opened by the library, a pointer
// and a length are those of a slice, and an output is a separate value.

impl Kind for Maps {
    fn open(self, is_text: bool, handle: &mut Handle, seed: Seed) -> u32 {
        match is_text {
            false => unsafe { bucket_map_new(handle, self.capacity, seed) },
            true => unsafe { bucket_text_map_new(handle, self.capacity, seed) },
        }
    }

    #[inline(always)]
    fn find(handle: &Handle, key: Form<'_>, value: &mut u64) -> u32 {
        match key {
            Form::Word(word) => unsafe { bucket_map_get(handle, word, value) },
            Form::Bytes(text) => unsafe { bucket_text_map_get(handle, text.as_ptr(), text.len(), value) },
        }
    }

    #[inline(always)]
    fn contains(handle: &Handle, key: Form<'_>) -> u32 {
        match key {
            Form::Word(word) => unsafe { bucket_map_contains(handle, word) },
            Form::Bytes(text) => unsafe { bucket_text_map_contains(handle, text.as_ptr(), text.len()) },
        }
    }

    #[inline(always)]
    fn remove(handle: &mut Handle, key: Form<'_>, value: &mut u64) -> u32 {
        match key {
            Form::Word(word) => unsafe { bucket_map_remove(handle, word, value) },
            Form::Bytes(text) => unsafe { bucket_text_map_remove(handle, text.as_ptr(), text.len(), value) },
        }
    }
}

impl Maps {
    /// `OK`: the pair is inserted; `PRESENT`: the key was present, and its value is output.
    #[inline(always)]
    pub fn get_or_insert(handle: &mut Handle, key: Form<'_>, value: u64, held: &mut u64) -> u32 {
        match key {
            Form::Word(word) => unsafe { bucket_map_get_or_insert(handle, word, value, held) },
            Form::Bytes(text) => unsafe {
                bucket_text_map_get_or_insert(handle, text.as_ptr(), text.len(), value, held)
            },
        }
    }
}

impl Kind for Caches {
    fn open(self, is_text: bool, handle: &mut Handle, seed: Seed) -> u32 {
        match is_text {
            false => unsafe { bucket_cache_new(handle, self.minimum, self.maximum, seed) },
            true => unsafe { bucket_text_cache_new(handle, self.minimum, self.maximum, seed) },
        }
    }

    #[inline(always)]
    fn find(handle: &Handle, key: Form<'_>, value: &mut u64) -> u32 {
        match key {
            Form::Word(word) => unsafe { bucket_cache_peek(handle, word, value) },
            Form::Bytes(text) => unsafe { bucket_text_cache_peek(handle, text.as_ptr(), text.len(), value) },
        }
    }

    #[inline(always)]
    fn contains(handle: &Handle, key: Form<'_>) -> u32 {
        match key {
            Form::Word(word) => unsafe { bucket_cache_contains(handle, word) },
            Form::Bytes(text) => unsafe { bucket_text_cache_contains(handle, text.as_ptr(), text.len()) },
        }
    }

    #[inline(always)]
    fn remove(handle: &mut Handle, key: Form<'_>, value: &mut u64) -> u32 {
        match key {
            Form::Word(word) => unsafe { bucket_cache_remove(handle, word, value) },
            Form::Bytes(text) => unsafe { bucket_text_cache_remove(handle, text.as_ptr(), text.len(), value) },
        }
    }
}

/// The output for the key of an evicted pair: none, since its node has it.
struct Gone {
    word: u64,
    byte: u8,
    len: usize,
}

impl Gone {
    const NONE: Gone = Gone { word: 0, byte: 0, len: 0 };
}

impl Caches {
    /// Outputs a key's value, and touches its pair.
    #[inline(always)]
    pub fn touch(handle: &mut Handle, key: Form<'_>, value: &mut u64) -> u32 {
        match key {
            Form::Word(word) => unsafe { bucket_cache_get(handle, word, value) },
            Form::Bytes(text) => unsafe { bucket_text_cache_get(handle, text.as_ptr(), text.len(), value) },
        }
    }

    /// `OK`: the pair is put; `EVICTED`: the same, and the value of the evicted pair is output; `PRESENT`: it isn't
    /// put, since the key is present.
    #[inline(always)]
    pub fn put(handle: &mut Handle, key: Form<'_>, value: u64, before: &mut u64) -> u32 {
        let mut gone = Gone::NONE;
        match key {
            Form::Word(word) => unsafe { bucket_cache_put(handle, word, value, &mut gone.word, before) },
            Form::Bytes(text) => unsafe {
                bucket_text_cache_put(handle, text.as_ptr(), text.len(), value, &mut gone.byte, 0, &mut gone.len, before)
            },
        }
    }

    /// The same, but `PRESENT`: the value is now the key's, and its earlier one is output.
    #[inline(always)]
    pub fn upsert(handle: &mut Handle, key: Form<'_>, value: u64, before: &mut u64) -> u32 {
        let mut gone = Gone::NONE;
        match key {
            Form::Word(word) => unsafe { bucket_cache_upsert(handle, word, value, &mut gone.word, before) },
            Form::Bytes(text) => unsafe {
                bucket_text_cache_upsert(handle, text.as_ptr(), text.len(), value, &mut gone.byte, 0, &mut gone.len, before)
            },
        }
    }
}
