//! How keys are hashed.

use std::collections::hash_map::RandomState;
use std::fmt;
use std::hash::BuildHasher;

/// How keys are hashed: by SipHash-1-3 with two secret keys, or by a faster hash without a key.
///
/// It is printed as `Seed(..)`, so that no log shows the secret.
///
/// A map or a set yields its pairs in the order of their hashes. So a loop that inserts them into another one with
/// the same seed takes up to O(n * n), unless that one reserves first, and a [`Cache`](crate::Cache) with that seed
/// evicts most of them. `clone`, `extend` and `collect` reserve, and random seeds differ.
///
/// ```
/// use bucket::{Map, Seed};
///
/// let mut map = Map::with_seed(Seed::from_bytes([7; 16]));
/// map.insert(1, "one")?;
/// assert_eq!(format!("{:?}", Seed::random()), "Seed(..)");
/// # Ok::<(), bucket::NoMemory>(())
/// ```
#[repr(C)]
#[derive(Clone, Copy, PartialEq, Eq)]
pub struct Seed {
    key0: u64,
    key1: u64,
}

impl Seed {
    /// The faster hash, the same in each run. An attacker can choose keys that collide in one bucket.
    ///
    /// ```
    /// use bucket::{Seed, Set};
    ///
    /// let numbers: Set<u32> = Set::with_seed(Seed::FIXED);
    /// assert!(numbers.is_empty());
    /// ```
    pub const FIXED: Seed = Seed::from_bytes([0; 16]);

    /// Returns a seed drawn from the secret keys of std's maps. It isn't `FIXED`.
    ///
    /// ```
    /// use bucket::Seed;
    ///
    /// assert!(Seed::random() != Seed::random());
    /// ```
    pub fn random() -> Seed {
        let keys = RandomState::new();
        Seed { key0: keys.hash_one(0) | 1, key1: keys.hash_one(1) }
    }

    /// Returns the seed of 16 bytes: each key is eight of them, the least significant first. If all are 0, it is
    /// `FIXED`.
    ///
    /// ```
    /// use bucket::Seed;
    ///
    /// assert!(Seed::from_bytes([0; 16]) == Seed::FIXED);
    /// ```
    pub const fn from_bytes(bytes: [u8; 16]) -> Seed {
        let word = u128::from_le_bytes(bytes);
        Seed { key0: word as u64, key1: (word >> 64) as u64 }
    }
}

impl fmt::Debug for Seed {
    fn fmt(&self, f: &mut fmt::Formatter<'_>) -> fmt::Result {
        f.write_str("Seed(..)")
    }
}
