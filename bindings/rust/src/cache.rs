//! A cache and its iterators.

mod all;
mod by_key;

pub use crate::iter::{Drain, IntoIter, Iter, IterMut};

use crate::kind::Caches;
use crate::table::Table;
use crate::{Key, NoMemory, Seed};

/// A bounded map: if there is no room for a new pair, it evicts one that was touched longest ago.
///
/// ```
/// use bucket::Cache;
///
/// let mut pages = Cache::new(100)?;
/// pages.put("/".to_string(), "welcome".to_string())?;
/// if let Some(page) = pages.get("/") {
///     assert_eq!(page, "welcome");
/// }
/// assert!(pages.len() <= pages.cap());
/// # Ok::<(), bucket::NoMemory>(())
/// ```
///
/// It isn't one list of all pairs by their use, as in the crate `lru`, but buckets of 32 slots, each with a list of
/// its own, with at least 64 slots in all. A new pair evicts one of its own bucket, the one touched longest ago
/// there. So a cache evicts before all its slots are taken (about 60 of 64 stay, or 231 of 256), and while it grows.
///
/// [`put`](Cache::put), [`get`](Cache::get) and [`get_mut`](Cache::get_mut) touch a pair; [`peek`](Cache::peek),
/// [`contains`](Cache::contains) and the iterators touch none.
pub struct Cache<K, V> {
    table: Table<Caches, K, V>,
}

/// The limits of a cache's maximum number of slots.
const LEAST_SLOTS: usize = 64;
const MOST_SLOTS: usize = 1 << 63;

impl<K: Key, V> Cache<K, V> {
    /// Returns an empty cache that grows to the least power of two that is at least that many slots and 64. It hashes
    /// with a random seed.
    ///
    /// # Errors
    ///
    /// An allocation failed.
    ///
    /// ```
    /// let cache: bucket::Cache<u64, String> = bucket::Cache::new(1000)?;
    /// assert_eq!((cache.len(), cache.cap()), (0, 1024));
    /// # Ok::<(), bucket::NoMemory>(())
    /// ```
    pub fn new(maximum: usize) -> Result<Cache<K, V>, NoMemory> {
        Cache::opened(0, maximum, None)
    }

    /// The same, hashed with this seed.
    ///
    /// # Errors
    ///
    /// An allocation failed.
    ///
    /// ```
    /// use bucket::{Cache, Seed};
    ///
    /// let cache: Cache<u64, u64> = Cache::with_seed(1000, Seed::FIXED)?; // for keys that no attacker chooses
    /// # Ok::<(), bucket::NoMemory>(())
    /// ```
    pub fn with_seed(maximum: usize, seed: Seed) -> Result<Cache<K, V>, NoMemory> {
        Cache::opened(0, maximum, Some(seed))
    }

    /// The same, with at least `minimum` slots from the first pair on, and with a maximum of `minimum` if that is
    /// more than `maximum`.
    ///
    /// # Errors
    ///
    /// An allocation failed.
    ///
    /// ```
    /// use bucket::{Cache, Seed};
    ///
    /// let cache: Cache<u64, u64> = Cache::with_capacity_and_seed(1024, 4096, Seed::random())?;
    /// assert_eq!(cache.cap(), 4096);
    /// let cache: Cache<u64, u64> = Cache::with_capacity_and_seed(2000, 1000, Seed::random())?;
    /// assert_eq!(cache.cap(), 2048);
    /// # Ok::<(), bucket::NoMemory>(())
    /// ```
    pub fn with_capacity_and_seed(minimum: usize, maximum: usize, seed: Seed) -> Result<Cache<K, V>, NoMemory> {
        Cache::opened(minimum, maximum, Some(seed))
    }

    fn opened(minimum: usize, maximum: usize, seed: Option<Seed>) -> Result<Cache<K, V>, NoMemory> {
        let mut cache = Cache { table: Table::new(Caches { minimum, maximum }, seed) };
        cache.table.open()?;
        Ok(cache)
    }
}

impl<K, V> Cache<K, V> {
    /// Returns the number of pairs. O(1).
    ///
    /// ```
    /// let mut cache = bucket::Cache::new(100)?;
    /// cache.put(1, 2)?;
    /// assert_eq!(cache.len(), 1);
    /// # Ok::<(), bucket::NoMemory>(())
    /// ```
    pub fn len(&self) -> usize {
        self.table.len()
    }

    /// Returns `true` if there are no pairs. O(1).
    ///
    /// ```
    /// assert!(bucket::Cache::<u64, u64>::new(100)?.is_empty());
    /// # Ok::<(), bucket::NoMemory>(())
    /// ```
    pub fn is_empty(&self) -> bool {
        self.len() == 0
    }

    /// Returns the maximum number of slots. The cache never has more pairs than that; a bucket whose 32 slots are
    /// taken evicts, even if other buckets have room.
    ///
    /// ```
    /// assert_eq!(bucket::Cache::<u64, u64>::new(100)?.cap(), 128);
    /// assert_eq!(bucket::Cache::<u64, u64>::new(1)?.cap(), 64);
    /// # Ok::<(), bucket::NoMemory>(())
    /// ```
    pub fn cap(&self) -> usize {
        let Caches { minimum, maximum } = self.table.kind;
        maximum.max(minimum).clamp(LEAST_SLOTS, MOST_SLOTS).next_power_of_two()
    }
}
