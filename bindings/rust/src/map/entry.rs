//! The place of a key in a map.

use super::{OccupiedEntry, VacantEntry};
use crate::kind::Maps;
use crate::table::Table;
use crate::{Key, NoMemory};
use std::fmt;

/// The place of a key in a map, which [`Map::entry`](crate::Map::entry) returns.
pub enum Entry<'a, K, V> {
    /// The key is present.
    Occupied(OccupiedEntry<'a, K, V>),
    /// The key is absent.
    Vacant(VacantEntry<'a, K, V>),
}

impl<'a, K: Key, V> Entry<'a, K, V> {
    #[inline]
    pub(crate) fn new(table: &'a mut Table<Maps, K, V>, key: K) -> Entry<'a, K, V> {
        match table.find(&key) {
            Some(address) => Entry::Occupied(OccupiedEntry { table, address }),
            None => Entry::Vacant(VacantEntry { table, key }),
        }
    }

    /// Returns the value, after inserting this one if the key was absent.
    ///
    /// # Errors
    ///
    /// An allocation failed: the map is as it was, and the pair is dropped.
    ///
    /// ```
    /// use bucket::Map;
    ///
    /// let mut counts = Map::new();
    /// *counts.entry('a').or_insert(0)? += 1;
    /// assert_eq!(counts[&'a'], 1);
    /// # Ok::<(), bucket::NoMemory>(())
    /// ```
    #[inline]
    pub fn or_insert(self, value: V) -> Result<&'a mut V, NoMemory> {
        self.or_insert_with(|| value)
    }

    /// Returns the value, after inserting one that `make` returns if the key was absent.
    ///
    /// # Errors
    ///
    /// An allocation failed: the map is as it was, and what was made is dropped.
    ///
    /// ```
    /// use bucket::Map;
    ///
    /// let mut lines = Map::new();
    /// lines.entry("Ann").or_insert_with(Vec::new)?.push(7);
    /// assert_eq!(lines["Ann"], [7]);
    /// # Ok::<(), bucket::NoMemory>(())
    /// ```
    #[inline]
    pub fn or_insert_with(self, make: impl FnOnce() -> V) -> Result<&'a mut V, NoMemory> {
        self.or_insert_with_key(|_| make())
    }

    /// Returns the value, after inserting one that `make` makes from the key if the key was absent.
    ///
    /// # Errors
    ///
    /// An allocation failed: the map is as it was, and what was made is dropped.
    ///
    /// ```
    /// use bucket::Map;
    ///
    /// let mut lengths = Map::new();
    /// assert_eq!(*lengths.entry("Ann").or_insert_with_key(|name| name.len())?, 3);
    /// # Ok::<(), bucket::NoMemory>(())
    /// ```
    #[inline]
    pub fn or_insert_with_key(self, make: impl FnOnce(&K) -> V) -> Result<&'a mut V, NoMemory> {
        match self {
            Entry::Occupied(entry) => Ok(entry.into_mut()),
            Entry::Vacant(entry) => {
                let value = make(&entry.key);
                entry.insert(value)
            }
        }
    }

    /// Returns the value, after inserting the default if the key was absent.
    ///
    /// # Errors
    ///
    /// An allocation failed: the map is as it was.
    ///
    /// ```
    /// use bucket::Map;
    ///
    /// let mut groups: Map<usize, Vec<&str>> = Map::new();
    /// for name in ["Ann", "Bob", "Carla"] {
    ///     groups.entry(name.len()).or_default()?.push(name);
    /// }
    /// assert_eq!(groups[&3], ["Ann", "Bob"]);
    /// # Ok::<(), bucket::NoMemory>(())
    /// ```
    #[inline]
    pub fn or_default(self) -> Result<&'a mut V, NoMemory>
    where
        V: Default,
    {
        self.or_insert_with(V::default)
    }

    /// Changes the value if the key is present.
    ///
    /// ```
    /// use bucket::Map;
    ///
    /// let mut counts = Map::from([("Ann", 1)]);
    /// for name in ["Ann", "Bob"] {
    ///     counts.entry(name).and_modify(|count| *count += 1).or_insert(1)?;
    /// }
    /// assert_eq!(counts, Map::from([("Ann", 2), ("Bob", 1)]));
    /// # Ok::<(), bucket::NoMemory>(())
    /// ```
    #[inline]
    pub fn and_modify(mut self, change: impl FnOnce(&mut V)) -> Entry<'a, K, V> {
        if let Entry::Occupied(entry) = &mut self {
            change(entry.get_mut());
        }
        self
    }

    /// Puts this value under the key, whether the key was present or not.
    ///
    /// # Errors
    ///
    /// An allocation failed: the map is as it was, and the pair is dropped.
    ///
    /// ```
    /// use bucket::Map;
    ///
    /// let mut map = Map::new();
    /// assert_eq!(map.entry("Ann").insert_entry(30)?.remove(), 30);
    /// # Ok::<(), bucket::NoMemory>(())
    /// ```
    pub fn insert_entry(self, value: V) -> Result<OccupiedEntry<'a, K, V>, NoMemory> {
        match self {
            Entry::Occupied(mut entry) => {
                entry.insert(value);
                Ok(entry)
            }
            Entry::Vacant(entry) => entry.insert_entry(value),
        }
    }

    /// Returns the key: the one that is present, or the one that the entry was requested for.
    ///
    /// ```
    /// let mut map = bucket::Map::<u64, u64>::new();
    /// assert_eq!(map.entry(7).key(), &7);
    /// ```
    pub fn key(&self) -> &K {
        match self {
            Entry::Occupied(entry) => entry.key(),
            Entry::Vacant(entry) => entry.key(),
        }
    }
}

impl<K: Key + fmt::Debug, V: fmt::Debug> fmt::Debug for Entry<'_, K, V> {
    fn fmt(&self, f: &mut fmt::Formatter<'_>) -> fmt::Result {
        let mut shown = f.debug_tuple("Entry");
        match self {
            Entry::Occupied(entry) => shown.field(entry),
            Entry::Vacant(entry) => shown.field(entry),
        };
        shown.finish()
    }
}
