//! What the tests share.
#![allow(dead_code)]

use std::cell::Cell;
use std::rc::Rc;

/// Random numbers from a seed.
pub struct Chance(pub u64);

impl Chance {
    pub fn next(&mut self) -> u64 {
        self.0 = self.0.wrapping_add(0x9e37_79b9_7f4a_7c15);
        let mut word = self.0;
        word = (word ^ (word >> 30)).wrapping_mul(0xbf58_476d_1ce4_e5b9);
        word = (word ^ (word >> 27)).wrapping_mul(0x94d0_49bb_1331_11eb);
        word ^ (word >> 31)
    }

    pub fn below(&mut self, limit: u64) -> u64 {
        self.next() % limit
    }
}

/// How many calls a random test makes. Where each of them is slow, as under valgrind, the environment may set a
/// smaller number.
pub fn calls() -> usize {
    std::env::var("BUCKET_CALLS").ok().and_then(|calls| calls.parse().ok()).unwrap_or(200_000)
}

/// How many counted values exist, and how many were dropped.
#[derive(Clone, Default)]
pub struct Tally(Rc<(Cell<isize>, Cell<usize>)>);

impl Tally {
    pub fn value(&self, number: u64) -> Counted {
        self.0 .0.set(self.0 .0.get() + 1);
        Counted { number, tally: self.clone(), panics: false }
    }

    /// A value that panics when it is dropped.
    pub fn panicking(&self, number: u64) -> Counted {
        let mut value = self.value(number);
        value.panics = true;
        value
    }

    pub fn there(&self) -> isize {
        self.0 .0.get()
    }

    pub fn dropped(&self) -> usize {
        self.0 .1.get()
    }
}

/// A number whose copies are counted.
pub struct Counted {
    pub number: u64,
    tally: Tally,
    panics: bool,
}

impl Clone for Counted {
    fn clone(&self) -> Counted {
        self.tally.value(self.number)
    }
}

impl PartialEq for Counted {
    fn eq(&self, other: &Counted) -> bool {
        self.number == other.number
    }
}

impl std::fmt::Debug for Counted {
    fn fmt(&self, f: &mut std::fmt::Formatter<'_>) -> std::fmt::Result {
        self.number.fmt(f)
    }
}

impl Drop for Counted {
    fn drop(&mut self) {
        let (there, dropped) = &*self.tally.0;
        there.set(there.get() - 1);
        dropped.set(dropped.get() + 1);
        assert!(there.get() >= 0, "a value is dropped twice");
        if self.panics {
            panic!("{} panics when dropped", self.number);
        }
    }
}
