//! A map, its entries and its iterators.

mod all;
mod by_key;
mod entry;
mod places;
mod traits;

pub use crate::iter::{Drain, IntoIter, IntoKeys, IntoValues, Iter, IterMut, Keys, Values, ValuesMut};
pub use all::ExtractIf;
pub use entry::Entry;
pub use places::{OccupiedEntry, VacantEntry};

use crate::kind::Maps;
use crate::table::Table;
use crate::{Key, NoMemory, Seed};

/// A hash map, like std's `HashMap`.
///
/// ```
/// use bucket::Map;
///
/// let mut visits = Map::new();
/// for page in ["/", "/about", "/"] {
///     *visits.entry(page).or_insert(0)? += 1;
/// }
/// assert_eq!(visits["/"], 2);
/// visits.retain(|_, count| *count > 1);
/// assert_eq!(visits, Map::from([("/", 2)]));
/// # Ok::<(), bucket::NoMemory>(())
/// ```
///
/// It is `Send` if its keys and values are, but not `Sync`, since the library takes one call at a time on a table,
/// look-ups too. Threads share one in a [`Mutex`](crate#threads).
///
/// It may outlive what its values borrow, unless their `Drop` accesses it:
///
/// ```
/// let mut map = bucket::Map::new();
/// let text = "Ann".to_string();
/// map.insert(1, &text)?;
/// # Ok::<(), bucket::NoMemory>(())
/// ```
///
/// ```compile_fail,E0597
/// struct Printed<'a>(&'a str);
///
/// impl Drop for Printed<'_> {
///     fn drop(&mut self) {
///         println!("{}", self.0);
///     }
/// }
/// let mut map = bucket::Map::new();
/// let text = "Ann".to_string();
/// map.insert(1, Printed(&text)).unwrap();
/// ```
pub struct Map<K, V> {
    table: Table<Maps, K, V>,
}

impl<K, V> Map<K, V> {
    /// An empty map that hashes with a random seed. Allocates nothing: the first insertion does.
    ///
    /// ```
    /// use bucket::Map;
    ///
    /// let mut map = Map::new();
    /// map.insert(-1, "one below")?;
    /// # Ok::<(), bucket::NoMemory>(())
    /// ```
    pub const fn new() -> Map<K, V> {
        Map { table: Table::new(Maps { capacity: 0 }, None) }
    }

    /// An empty map whose first insertion allocates room for that many pairs. Allocates nothing;
    /// [`reserve`](Map::reserve) allocates at once.
    ///
    /// ```
    /// use bucket::Map;
    ///
    /// let map: Map<u64, u64> = Map::with_capacity(1000);
    /// assert!(map.capacity() >= 1000);
    /// ```
    pub const fn with_capacity(capacity: usize) -> Map<K, V> {
        Map { table: Table::new(Maps { capacity }, None) }
    }

    /// An empty map that hashes with this seed. Allocates nothing.
    ///
    /// ```
    /// use bucket::{Map, Seed};
    ///
    /// let map: Map<u64, u64> = Map::with_seed(Seed::FIXED); // for keys that no attacker chooses
    /// assert!(map.is_empty());
    /// ```
    pub const fn with_seed(seed: Seed) -> Map<K, V> {
        Map::with_capacity_and_seed(0, seed)
    }

    /// An empty map that hashes with this seed, and whose first insertion allocates room for that many pairs.
    /// Allocates nothing.
    ///
    /// ```
    /// use bucket::{Map, Seed};
    ///
    /// let map: Map<String, u64> = Map::with_capacity_and_seed(100, Seed::from_bytes([7; 16]));
    /// assert!(map.capacity() >= 100);
    /// ```
    pub const fn with_capacity_and_seed(capacity: usize, seed: Seed) -> Map<K, V> {
        Map { table: Table::new(Maps { capacity }, Some(seed)) }
    }
}

impl<K: Key, V> Map<K, V> {
    /// Returns a map of these pairs, with a random seed; if two have the same key, the later value stays.
    ///
    /// # Errors
    ///
    /// An allocation failed; the pairs are dropped.
    ///
    /// ```
    /// use bucket::Map;
    ///
    /// let map = Map::try_from_iter([("a", 1), ("b", 2), ("a", 3)])?;
    /// assert_eq!((map.len(), map["a"]), (2, 3));
    /// # Ok::<(), bucket::NoMemory>(())
    /// ```
    pub fn try_from_iter(pairs: impl IntoIterator<Item = (K, V)>) -> Result<Map<K, V>, NoMemory> {
        let mut map = Map::new();
        map.try_extend(pairs)?;
        Ok(map)
    }

    /// Inserts pairs, in their order.
    ///
    /// # Errors
    ///
    /// An allocation failed: the pairs before that one are inserted, that one is dropped, and those after it weren't
    /// requested.
    ///
    /// ```
    /// use bucket::Map;
    ///
    /// let mut map = Map::new();
    /// map.try_extend((0..100).map(|number| (number, number * number)))?;
    /// assert_eq!(map[&7], 49);
    /// # Ok::<(), bucket::NoMemory>(())
    /// ```
    pub fn try_extend(&mut self, pairs: impl IntoIterator<Item = (K, V)>) -> Result<(), NoMemory> {
        let mut pairs = pairs.into_iter();
        // As std does: pairs inserted into a map that isn't empty may have keys that are present.
        let least = pairs.size_hint().0;
        let room = if self.is_empty() { least } else { least.div_ceil(2) };
        if room > 0 {
            // Even without that room, the pairs may fit.
            let _ = self.reserve(room);
        }
        pairs.try_for_each(|(key, value)| self.insert(key, value).map(drop))
    }

    /// Returns a copy of the map, with the same seed, or with a random one if its seed is random.
    ///
    /// # Errors
    ///
    /// An allocation failed; the copy is dropped. `V::clone` may have errors of its own.
    ///
    /// ```
    /// use bucket::Map;
    ///
    /// let map = Map::from([(1, "one".to_string())]);
    /// assert_eq!(map.try_clone()?, map);
    /// # Ok::<(), bucket::NoMemory>(())
    /// ```
    pub fn try_clone(&self) -> Result<Map<K, V>, NoMemory>
    where
        V: Clone,
    {
        let mut copy = Map { table: self.table.like() };
        if !self.is_empty() {
            copy.reserve(self.len())?;
        }
        copy.table.copy_from(&self.table, |copy, key, value| copy.upsert(key, value).map(drop))?;
        Ok(copy)
    }

    /// Makes room for that many more pairs. O(slots).
    ///
    /// # Errors
    ///
    /// An allocation failed, or no array can have so many slots; the pairs are as they were.
    ///
    /// ```
    /// use bucket::{Map, NoMemory};
    ///
    /// let mut map: Map<u64, u64> = Map::new();
    /// map.reserve(1000)?;
    /// assert_eq!(map.reserve(usize::MAX), Err(NoMemory));
    /// # Ok::<(), NoMemory>(())
    /// ```
    pub fn reserve(&mut self, additional: usize) -> Result<(), NoMemory> {
        self.table.reserve(additional)
    }

    /// The same as [`reserve`](Map::reserve), under std's name for a call that may fail.
    ///
    /// # Errors
    ///
    /// An allocation failed, or no array can have so many slots; the pairs are as they were.
    ///
    /// ```
    /// use bucket::Map;
    ///
    /// let mut map: Map<u64, u64> = Map::new();
    /// assert!(map.try_reserve(10).is_ok() && map.try_reserve(usize::MAX).is_err());
    /// ```
    pub fn try_reserve(&mut self, additional: usize) -> Result<(), NoMemory> {
        self.table.reserve(additional)
    }

    /// Leaves as few slots as the pairs need, and forgets the room that `with_capacity` asked for. O(slots).
    ///
    /// # Errors
    ///
    /// An allocation failed; the pairs are as they were.
    ///
    /// ```
    /// use bucket::Map;
    ///
    /// let mut map = Map::from([(1, 2)]);
    /// map.reserve(10_000)?;
    /// map.shrink_to_fit()?;
    /// assert!(map.capacity() < 10_000);
    /// # Ok::<(), bucket::NoMemory>(())
    /// ```
    pub fn shrink_to_fit(&mut self) -> Result<(), NoMemory> {
        self.table.shrink_to_fit()
    }

    /// Leaves as few slots as that many pairs need, if there are more, but at least as many as the present pairs
    /// need. A map without pairs frees its slots, and the first insertion allocates the room: the call allocates
    /// nothing then. Otherwise the slots become as few as the present pairs need, and then as many as are asked for,
    /// so all pairs may be moved twice. O(slots).
    ///
    /// # Errors
    ///
    /// An allocation failed; the pairs are as they were. There may be fewer slots than were asked for.
    ///
    /// ```
    /// use bucket::Map;
    ///
    /// let mut map = Map::from([(1, 2)]);
    /// map.reserve(10_000)?;
    /// map.shrink_to(100)?;
    /// assert!(map.capacity() >= 100 && map.capacity() < 10_000);
    /// # Ok::<(), bucket::NoMemory>(())
    /// ```
    pub fn shrink_to(&mut self, least: usize) -> Result<(), NoMemory> {
        if self.capacity() <= least {
            return Ok(());
        }
        if self.is_empty() {
            self.clear();
            self.table.kind.capacity = least;
            return Ok(());
        }
        self.table.shrink_to_fit()?;
        match least.checked_sub(self.len()) {
            Some(room) if room > 0 => self.reserve(room),
            _ => Ok(()),
        }
    }
}

impl<K, V> Map<K, V> {
    /// Returns the number of slots, or how many there will be when the first pair is inserted. An insertion may
    /// allocate more before each slot has a pair. O(1).
    ///
    /// ```
    /// use bucket::Map;
    ///
    /// let mut map = Map::from([(1, 2)]);
    /// map.reserve(1000)?;
    /// assert!(map.capacity() >= 1001);
    /// # Ok::<(), bucket::NoMemory>(())
    /// ```
    pub fn capacity(&self) -> usize {
        self.table.slots().max(self.table.kind.capacity)
    }

    /// Returns the number of pairs. O(1).
    ///
    /// ```
    /// assert_eq!(bucket::Map::from([(1, 'a'), (2, 'b')]).len(), 2);
    /// ```
    pub fn len(&self) -> usize {
        self.table.len()
    }

    /// Returns `true` if there are no pairs. O(1).
    ///
    /// ```
    /// assert!(bucket::Map::<u64, u64>::new().is_empty());
    /// ```
    pub fn is_empty(&self) -> bool {
        self.len() == 0
    }
}
