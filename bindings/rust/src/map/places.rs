//! The places of keys that are present, and of those that are absent.

use crate::kind::Maps;
use crate::node::{at, Node};
use crate::table::Table;
use crate::{Key, NoMemory, NotInserted};
use std::fmt;
use std::mem::replace;

/// The place of a key that is present.
pub struct OccupiedEntry<'a, K, V> {
    pub(super) table: &'a mut Table<Maps, K, V>,
    /// The address of its node, which is in the table.
    pub(super) address: u64,
}

/// The place of a key that is absent.
pub struct VacantEntry<'a, K, V> {
    pub(super) table: &'a mut Table<Maps, K, V>,
    pub(super) key: K,
}

impl<'a, K, V> OccupiedEntry<'a, K, V> {
    fn node(&self) -> &Node<K, V> {
        // SAFETY: the node is in the table, which is borrowed by this entry only. The same holds below.
        unsafe { &*at(self.address) }
    }

    fn node_mut(&mut self) -> &mut Node<K, V> {
        unsafe { &mut *at(self.address) }
    }

    /// Returns the key that is present.
    ///
    /// ```
    /// use bucket::map::Entry;
    ///
    /// let mut map = bucket::Map::from([(7, 1)]);
    /// if let Entry::Occupied(entry) = map.entry(7) {
    ///     assert_eq!(entry.key(), &7);
    /// }
    /// ```
    pub fn key(&self) -> &K {
        &self.node().key
    }

    /// Returns the value.
    ///
    /// ```
    /// use bucket::map::Entry;
    ///
    /// let mut map = bucket::Map::from([(7, 1)]);
    /// if let Entry::Occupied(entry) = map.entry(7) {
    ///     assert_eq!(entry.get(), &1);
    /// }
    /// ```
    pub fn get(&self) -> &V {
        &self.node().value
    }

    /// Returns the value, mutably.
    ///
    /// ```
    /// use bucket::map::Entry;
    ///
    /// let mut map = bucket::Map::from([(7, 1)]);
    /// if let Entry::Occupied(mut entry) = map.entry(7) {
    ///     *entry.get_mut() += 1;
    ///     assert_eq!(entry.get(), &2);
    /// }
    /// ```
    pub fn get_mut(&mut self) -> &mut V {
        &mut self.node_mut().value
    }

    /// Returns the value, mutably, for as long as the map is borrowed.
    ///
    /// ```
    /// use bucket::map::Entry;
    ///
    /// let mut map = bucket::Map::from([(7, 1)]);
    /// let value = match map.entry(7) {
    ///     Entry::Occupied(entry) => entry.into_mut(),
    ///     Entry::Vacant(entry) => entry.insert(0)?,
    /// };
    /// *value += 1;
    /// assert_eq!(map[&7], 2);
    /// # Ok::<(), bucket::NoMemory>(())
    /// ```
    pub fn into_mut(self) -> &'a mut V {
        unsafe { &mut (*at::<K, V>(self.address)).value }
    }

    pub(crate) fn into_key_ref(self) -> &'a K {
        unsafe { &(*at::<K, V>(self.address)).key }
    }

    /// Replaces the value, and returns the earlier one.
    ///
    /// ```
    /// use bucket::map::Entry;
    ///
    /// let mut map = bucket::Map::from([(7, 1)]);
    /// if let Entry::Occupied(mut entry) = map.entry(7) {
    ///     assert_eq!(entry.insert(2), 1);
    /// }
    /// ```
    pub fn insert(&mut self, value: V) -> V {
        replace(self.get_mut(), value)
    }
}

impl<K: Key, V> OccupiedEntry<'_, K, V> {
    /// Removes the key, and returns its value.
    ///
    /// ```
    /// use bucket::map::Entry;
    ///
    /// let mut map = bucket::Map::from([(7, 1)]);
    /// if let Entry::Occupied(entry) = map.entry(7) {
    ///     assert_eq!(entry.remove(), 1);
    /// }
    /// assert!(map.is_empty());
    /// ```
    pub fn remove(self) -> V {
        self.remove_entry().1
    }

    /// Removes the key, and returns it with its value.
    ///
    /// ```
    /// use bucket::map::Entry;
    ///
    /// let mut map = bucket::Map::from([("Ann".to_string(), 1)]);
    /// if let Entry::Occupied(entry) = map.entry("Ann".to_string()) {
    ///     assert_eq!(entry.remove_entry(), ("Ann".to_string(), 1));
    /// }
    /// ```
    pub fn remove_entry(self) -> (K, V) {
        unsafe { self.table.unlink(self.address) }.into_pair()
    }
}

impl<'a, K, V> VacantEntry<'a, K, V> {
    /// Returns the key that the entry was requested for.
    ///
    /// ```
    /// use bucket::map::Entry;
    ///
    /// let mut map = bucket::Map::<u64, u64>::new();
    /// if let Entry::Vacant(entry) = map.entry(7) {
    ///     assert_eq!(entry.key(), &7);
    /// }
    /// ```
    pub fn key(&self) -> &K {
        &self.key
    }

    /// Returns the key that the entry was requested for, by value.
    ///
    /// ```
    /// use bucket::map::Entry;
    ///
    /// let mut map = bucket::Map::<String, u64>::new();
    /// if let Entry::Vacant(entry) = map.entry("Ann".to_string()) {
    ///     assert_eq!(entry.into_key(), "Ann");
    /// }
    /// ```
    pub fn into_key(self) -> K {
        self.key
    }
}

impl<'a, K: Key, V> VacantEntry<'a, K, V> {
    /// Inserts the key with this value.
    ///
    /// # Errors
    ///
    /// An allocation failed: the map is as it was, and the pair is dropped.
    ///
    /// ```
    /// use bucket::map::Entry;
    ///
    /// let mut map = bucket::Map::new();
    /// if let Entry::Vacant(entry) = map.entry(7) {
    ///     *entry.insert(1)? += 1;
    /// }
    /// assert_eq!(map[&7], 2);
    /// # Ok::<(), bucket::NoMemory>(())
    /// ```
    #[inline]
    pub fn insert(self, value: V) -> Result<&'a mut V, NoMemory> {
        self.try_insert(value).map_err(|_| NoMemory)
    }

    /// Inserts the key with this value.
    ///
    /// # Errors
    ///
    /// An allocation failed: the map is as it was, and the error has the pair.
    ///
    /// ```
    /// use bucket::map::Entry;
    ///
    /// let mut map = bucket::Map::new();
    /// if let Entry::Vacant(entry) = map.entry(7) {
    ///     *entry.try_insert(1)? += 1;
    /// }
    /// assert_eq!(map[&7], 2);
    /// # Ok::<(), bucket::NotInserted<i32, i32>>(())
    /// ```
    #[inline]
    pub fn try_insert(self, value: V) -> Result<&'a mut V, NotInserted<K, V>> {
        let address = self.table.insert(self.key, value)?;
        // SAFETY: the node is in the table, which is borrowed for as long.
        Ok(unsafe { &mut (*at::<K, V>(address)).value })
    }

    /// Inserts the key with this value, and returns its entry.
    ///
    /// # Errors
    ///
    /// An allocation failed: the map is as it was, and the pair is dropped.
    ///
    /// ```
    /// use bucket::map::Entry;
    ///
    /// let mut map = bucket::Map::new();
    /// if let Entry::Vacant(entry) = map.entry(7) {
    ///     assert_eq!(entry.insert_entry(1)?.get(), &1);
    /// }
    /// # Ok::<(), bucket::NoMemory>(())
    /// ```
    pub fn insert_entry(self, value: V) -> Result<OccupiedEntry<'a, K, V>, NoMemory> {
        let address = self.table.insert(self.key, value).map_err(|_| NoMemory)?;
        Ok(OccupiedEntry { table: self.table, address })
    }
}

impl<K: fmt::Debug, V: fmt::Debug> fmt::Debug for OccupiedEntry<'_, K, V> {
    fn fmt(&self, f: &mut fmt::Formatter<'_>) -> fmt::Result {
        f.debug_struct("OccupiedEntry").field("key", self.key()).field("value", self.get()).finish_non_exhaustive()
    }
}

impl<K: fmt::Debug, V> fmt::Debug for VacantEntry<'_, K, V> {
    fn fmt(&self, f: &mut fmt::Formatter<'_>) -> fmt::Result {
        f.debug_tuple("VacantEntry").field(self.key()).finish()
    }
}
