//! A set and its iterators.

mod algebra;
mod iter;
mod traits;

pub use algebra::{Difference, Intersection, SymmetricDifference, Union};
pub use iter::{Drain, ExtractIf, IntoIter, Iter};

use crate::map::{Entry, Map};
use crate::{Key, KeyForm, NoMemory, Seed};
use std::borrow::Borrow;
use std::mem::replace;

/// A hash set, like std's `HashSet`.
///
/// ```
/// use bucket::Set;
///
/// let mut seen = Set::new();
/// assert!(seen.insert("Ann".to_string())?);
/// assert!(!seen.insert("Ann".to_string())?);
/// assert!(seen.contains("Ann"));
/// # Ok::<(), bucket::NoMemory>(())
/// ```
pub struct Set<K> {
    map: Map<K, ()>,
}

impl<K> Set<K> {
    /// An empty set that hashes with a random seed. Allocates nothing: the first insertion does.
    ///
    /// ```
    /// let set: bucket::Set<u64> = bucket::Set::new();
    /// assert!(set.is_empty());
    /// ```
    pub const fn new() -> Set<K> {
        Set { map: Map::new() }
    }

    /// An empty set whose first insertion allocates room for that many keys. Allocates nothing;
    /// [`reserve`](Set::reserve) allocates at once.
    ///
    /// ```
    /// let set: bucket::Set<u64> = bucket::Set::with_capacity(100);
    /// assert!(set.capacity() >= 100);
    /// ```
    pub const fn with_capacity(capacity: usize) -> Set<K> {
        Set { map: Map::with_capacity(capacity) }
    }

    /// An empty set that hashes with this seed. Allocates nothing.
    ///
    /// ```
    /// use bucket::{Seed, Set};
    ///
    /// let set: Set<u64> = Set::with_seed(Seed::FIXED); // for keys that no attacker chooses
    /// assert!(set.is_empty());
    /// ```
    pub const fn with_seed(seed: Seed) -> Set<K> {
        Set { map: Map::with_seed(seed) }
    }

    /// An empty set that hashes with this seed, and whose first insertion allocates room for that many keys.
    /// Allocates nothing.
    ///
    /// ```
    /// use bucket::{Seed, Set};
    ///
    /// let set: Set<u64> = Set::with_capacity_and_seed(100, Seed::FIXED);
    /// assert!(set.capacity() >= 100);
    /// ```
    pub const fn with_capacity_and_seed(capacity: usize, seed: Seed) -> Set<K> {
        Set { map: Map::with_capacity_and_seed(capacity, seed) }
    }
}

impl<K: Key> Set<K> {
    /// Returns a set of these keys, with a random seed; of equal keys the first stays.
    ///
    /// # Errors
    ///
    /// An allocation failed; the keys are dropped.
    ///
    /// ```
    /// use bucket::Set;
    ///
    /// assert_eq!(Set::try_from_iter("hello".chars())?.len(), 4);
    /// # Ok::<(), bucket::NoMemory>(())
    /// ```
    pub fn try_from_iter(keys: impl IntoIterator<Item = K>) -> Result<Set<K>, NoMemory> {
        Map::try_from_iter(keys.into_iter().map(|key| (key, ()))).map(|map| Set { map })
    }

    /// Inserts keys, in their order.
    ///
    /// # Errors
    ///
    /// An allocation failed: the keys before that one are inserted, that one is dropped, and those after it weren't
    /// requested.
    ///
    /// ```
    /// let mut set = bucket::Set::new();
    /// set.try_extend([1, 2, 1])?;
    /// assert_eq!(set.len(), 2);
    /// # Ok::<(), bucket::NoMemory>(())
    /// ```
    pub fn try_extend(&mut self, keys: impl IntoIterator<Item = K>) -> Result<(), NoMemory> {
        self.map.try_extend(keys.into_iter().map(|key| (key, ())))
    }

    /// Returns a copy of the set, with the same seed, or with a random one if its seed is random.
    ///
    /// # Errors
    ///
    /// An allocation failed; the copy is dropped.
    ///
    /// ```
    /// let set = bucket::Set::from(["a", "b"]);
    /// assert_eq!(set.try_clone()?, set);
    /// # Ok::<(), bucket::NoMemory>(())
    /// ```
    pub fn try_clone(&self) -> Result<Set<K>, NoMemory> {
        self.map.try_clone().map(|map| Set { map })
    }

    /// Returns `true` if a key is present. O(1).
    ///
    /// ```
    /// assert!(bucket::Set::from(["Ann".to_string()]).contains("Ann"));
    /// ```
    #[inline]
    pub fn contains<Q>(&self, key: &Q) -> bool
    where
        K: Borrow<Q>,
        Q: ?Sized + KeyForm,
    {
        self.map.contains_key(key)
    }

    /// Returns the key as it was inserted. O(1).
    ///
    /// ```
    /// assert_eq!(bucket::Set::from(["Ann".to_string()]).get("Ann"), Some(&"Ann".to_string()));
    /// ```
    #[inline]
    pub fn get<Q>(&self, key: &Q) -> Option<&K>
    where
        K: Borrow<Q>,
        Q: ?Sized + KeyForm,
    {
        self.map.get_key_value(key).map(|(key, ())| key)
    }

    /// Inserts a key, and returns whether it was absent. A key that is present stays, and the call then allocates
    /// nothing. O(1).
    ///
    /// # Errors
    ///
    /// An allocation failed: the set is as it was, and the key is dropped.
    ///
    /// ```
    /// let mut set = bucket::Set::new();
    /// assert_eq!((set.insert(7)?, set.insert(7)?), (true, false));
    /// # Ok::<(), bucket::NoMemory>(())
    /// ```
    #[inline]
    pub fn insert(&mut self, key: K) -> Result<bool, NoMemory> {
        Ok(self.map.insert(key, ())?.is_none())
    }

    /// Inserts a key in place of an equal one, which is returned. O(1).
    ///
    /// # Errors
    ///
    /// An allocation failed: the set is as it was, and the key is dropped. It can't fail if the key is present.
    ///
    /// ```
    /// let mut set = bucket::Set::new();
    /// assert_eq!(set.replace("a".to_string())?, None);
    /// assert_eq!(set.replace("a".to_string())?, Some("a".to_string()));
    /// # Ok::<(), bucket::NoMemory>(())
    /// ```
    pub fn replace(&mut self, key: K) -> Result<Option<K>, NoMemory> {
        if let Some(held) = self.map.key_mut(&key) {
            return Ok(Some(replace(held, key)));
        }
        self.map.insert(key, ())?;
        Ok(None)
    }

    /// Returns the key that is present, or inserts this one and returns it. O(1).
    ///
    /// # Errors
    ///
    /// An allocation failed: the set is as it was, and the key is dropped. It can't fail if the key is present.
    ///
    /// ```
    /// let mut set = bucket::Set::new();
    /// assert_eq!(set.get_or_insert("Ann".to_string())?, "Ann");
    /// # Ok::<(), bucket::NoMemory>(())
    /// ```
    pub fn get_or_insert(&mut self, key: K) -> Result<&K, NoMemory> {
        match self.map.entry(key) {
            Entry::Occupied(entry) => Ok(entry.into_key_ref()),
            Entry::Vacant(entry) => Ok(entry.insert_entry(())?.into_key_ref()),
        }
    }

    /// Removes a key, and returns whether it was present. Allocates nothing. O(1).
    ///
    /// ```
    /// let mut set = bucket::Set::from([7]);
    /// assert_eq!((set.remove(&7), set.remove(&7)), (true, false));
    /// ```
    #[inline]
    pub fn remove<Q>(&mut self, key: &Q) -> bool
    where
        K: Borrow<Q>,
        Q: ?Sized + KeyForm,
    {
        self.map.remove(key).is_some()
    }

    /// Removes a key, and returns it. Allocates nothing. O(1).
    ///
    /// ```
    /// let mut set = bucket::Set::from(["Ann".to_string()]);
    /// assert_eq!(set.take("Ann"), Some("Ann".to_string()));
    /// ```
    #[inline]
    pub fn take<Q>(&mut self, key: &Q) -> Option<K>
    where
        K: Borrow<Q>,
        Q: ?Sized + KeyForm,
    {
        self.map.remove_entry(key).map(|(key, ())| key)
    }

    /// Keeps the keys for which `keeps` returns `true`, and drops the others, once it has been called for all.
    /// Allocates nothing. O(slots).
    ///
    /// ```
    /// let mut set: bucket::Set<u32> = (0..8).collect();
    /// set.retain(|key| key % 4 == 0);
    /// assert_eq!(set, bucket::Set::from([0, 4]));
    /// ```
    pub fn retain(&mut self, mut keeps: impl FnMut(&K) -> bool) {
        self.map.retain(|key, ()| keeps(key))
    }

    /// Removes and returns the keys for which `takes` returns `true`, one per step. A key for which it wasn't called
    /// stays. Allocates nothing. O(slots).
    ///
    /// ```
    /// let mut set: bucket::Set<u32> = (0..8).collect();
    /// assert_eq!(set.extract_if(|key| key % 2 == 0).count(), 4);
    /// assert_eq!(set.len(), 4);
    /// ```
    pub fn extract_if<F: FnMut(&K) -> bool>(&mut self, takes: F) -> ExtractIf<'_, K, F> {
        ExtractIf::new(&mut self.map, takes)
    }

    /// Makes room for that many more keys. O(slots).
    ///
    /// # Errors
    ///
    /// An allocation failed, or no array can have so many slots; the keys are as they were.
    ///
    /// ```
    /// let mut set = bucket::Set::from([1]);
    /// set.reserve(1000)?;
    /// assert!(set.capacity() >= 1001);
    /// # Ok::<(), bucket::NoMemory>(())
    /// ```
    pub fn reserve(&mut self, additional: usize) -> Result<(), NoMemory> {
        self.map.reserve(additional)
    }

    /// The same as [`reserve`](Set::reserve), under std's name for a call that may fail.
    ///
    /// # Errors
    ///
    /// An allocation failed, or no array can have so many slots; the keys are as they were.
    ///
    /// ```
    /// assert!(bucket::Set::<u64>::new().try_reserve(usize::MAX).is_err());
    /// ```
    pub fn try_reserve(&mut self, additional: usize) -> Result<(), NoMemory> {
        self.map.reserve(additional)
    }

    /// Leaves as few slots as the keys need, and forgets the room that `with_capacity` asked for. O(slots).
    ///
    /// # Errors
    ///
    /// An allocation failed; the keys are as they were.
    ///
    /// ```
    /// let mut set = bucket::Set::from([1]);
    /// set.reserve(10_000)?;
    /// set.shrink_to_fit()?;
    /// assert!(set.capacity() < 10_000);
    /// # Ok::<(), bucket::NoMemory>(())
    /// ```
    pub fn shrink_to_fit(&mut self) -> Result<(), NoMemory> {
        self.map.shrink_to_fit()
    }

    /// Leaves as few slots as that many keys need, if there are more, but at least as many as the present keys need.
    /// A set without keys frees its slots, and the first insertion allocates the room: the call allocates nothing
    /// then. Otherwise the slots become as few as the present keys need, and then as many as are asked for, so all
    /// keys may be moved twice. O(slots).
    ///
    /// # Errors
    ///
    /// An allocation failed; the keys are as they were. There may be fewer slots than were asked for.
    ///
    /// ```
    /// let mut set = bucket::Set::from([1]);
    /// set.reserve(10_000)?;
    /// set.shrink_to(100)?;
    /// assert!(set.capacity() >= 100 && set.capacity() < 10_000);
    /// # Ok::<(), bucket::NoMemory>(())
    /// ```
    pub fn shrink_to(&mut self, least: usize) -> Result<(), NoMemory> {
        self.map.shrink_to(least)
    }
}

impl<K> Set<K> {
    /// Returns the number of slots, or how many there will be when the first key is inserted. O(1).
    ///
    /// ```
    /// assert!(bucket::Set::from([1, 2, 3]).capacity() >= 3);
    /// ```
    pub fn capacity(&self) -> usize {
        self.map.capacity()
    }

    /// Returns the number of keys. O(1).
    ///
    /// ```
    /// assert_eq!(bucket::Set::from([1, 2, 1]).len(), 2);
    /// ```
    pub fn len(&self) -> usize {
        self.map.len()
    }

    /// Returns `true` if there are no keys. O(1).
    ///
    /// ```
    /// assert!(bucket::Set::<u64>::new().is_empty());
    /// ```
    pub fn is_empty(&self) -> bool {
        self.map.is_empty()
    }

    /// Returns an iterator over the keys, in no particular order. All steps together are O(slots), and allocate
    /// nothing.
    ///
    /// ```
    /// assert_eq!(bucket::Set::from([1, 2, 3]).iter().sum::<i32>(), 6);
    /// ```
    pub fn iter(&self) -> Iter<'_, K> {
        Iter(self.map.keys())
    }

    /// Removes all keys, and returns an iterator over them. The set is empty at once, and has no slots.
    ///
    /// ```
    /// let mut set = bucket::Set::from(["a"]);
    /// assert_eq!(set.drain().collect::<Vec<_>>(), ["a"]);
    /// assert!(set.is_empty());
    /// ```
    pub fn drain(&mut self) -> Drain<'_, K> {
        Drain(self.map.drain())
    }

    /// Drops all keys and slots. The seed stays, and so does the room that `with_capacity` asked for.
    ///
    /// ```
    /// let mut set = bucket::Set::from([1]);
    /// set.clear();
    /// assert!(set.is_empty());
    /// ```
    pub fn clear(&mut self) {
        self.map.clear()
    }
}
