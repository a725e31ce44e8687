//! Calls by one key.

use super::{Entry, Map};
use crate::node::at;
use crate::{Key, KeyForm, NoMemory, NotInserted};
use std::borrow::Borrow;

impl<K: Key, V> Map<K, V> {
    /// Returns the value of a key. O(1).
    ///
    /// ```
    /// use bucket::Map;
    ///
    /// let ages = Map::from([("Ann".to_string(), 30)]);
    /// assert_eq!(ages.get("Ann"), Some(&30));
    /// assert_eq!(ages.get("Bob"), None);
    /// ```
    #[inline]
    pub fn get<Q>(&self, key: &Q) -> Option<&V>
    where
        K: Borrow<Q>,
        Q: ?Sized + KeyForm,
    {
        self.table.get(key).map(|node| &node.value)
    }

    /// Returns a mutable reference to the value of a key. O(1).
    ///
    /// ```
    /// use bucket::Map;
    ///
    /// let mut map = Map::from([(1, vec![2])]);
    /// if let Some(values) = map.get_mut(&1) {
    ///     values.push(3);
    /// }
    /// assert_eq!(map[&1], [2, 3]);
    /// ```
    #[inline]
    pub fn get_mut<Q>(&mut self, key: &Q) -> Option<&mut V>
    where
        K: Borrow<Q>,
        Q: ?Sized + KeyForm,
    {
        self.table.get_mut(key).map(|node| &mut node.value)
    }

    /// Returns the pair of a key: the key as it was inserted, and its value. O(1).
    ///
    /// ```
    /// use bucket::Map;
    ///
    /// let ages = Map::from([("Ann".to_string(), 30)]);
    /// assert_eq!(ages.get_key_value("Ann"), Some((&"Ann".to_string(), &30)));
    /// ```
    #[inline]
    pub fn get_key_value<Q>(&self, key: &Q) -> Option<(&K, &V)>
    where
        K: Borrow<Q>,
        Q: ?Sized + KeyForm,
    {
        self.table.get(key).map(|node| (&node.key, &node.value))
    }

    /// Returns mutable references to the values of several keys. O(N²).
    ///
    /// # Panics
    ///
    /// If a key that is present comes twice.
    ///
    /// ```
    /// use bucket::Map;
    ///
    /// let mut sums = Map::from([("Ann", 30), ("Bob", 20)]);
    /// if let [Some(from), Some(to)] = sums.get_disjoint_mut(["Ann", "Bob"]) {
    ///     *from -= 5;
    ///     *to += 5;
    /// }
    /// assert_eq!(sums, Map::from([("Ann", 25), ("Bob", 25)]));
    /// ```
    pub fn get_disjoint_mut<Q, const N: usize>(&mut self, keys: [&Q; N]) -> [Option<&'_ mut V>; N]
    where
        K: Borrow<Q>,
        Q: ?Sized + KeyForm,
    {
        let found = keys.map(|key| self.table.find(key));
        for (place, address) in found.iter().enumerate() {
            assert!(address.is_none() || !found[..place].contains(address), "duplicate keys found");
        }
        // SAFETY: the nodes is in the table, which is borrowed for as long, and no two are one.
        found.map(|address| address.map(|address| unsafe { &mut (*at::<K, V>(address)).value }))
    }

    /// Returns `true` if a key is present. O(1).
    ///
    /// ```
    /// assert!(bucket::Map::from([(b"ab".to_vec(), 1)]).contains_key(&b"ab"[..]));
    /// ```
    #[inline]
    pub fn contains_key<Q>(&self, key: &Q) -> bool
    where
        K: Borrow<Q>,
        Q: ?Sized + KeyForm,
    {
        self.table.contains(key)
    }

    /// Inserts a pair, or replaces the value of a key that is present, and returns the earlier value. A key that is
    /// present stays, and the call then allocates nothing. O(1).
    ///
    /// # Errors
    ///
    /// An allocation failed: the map is as it was, and the pair is dropped. [`try_insert`](Map::try_insert) returns
    /// it.
    ///
    /// ```
    /// use bucket::Map;
    ///
    /// let mut map = Map::new();
    /// assert_eq!(map.insert("Ann", 30)?, None);
    /// assert_eq!(map.insert("Ann", 31)?, Some(30));
    /// # Ok::<(), bucket::NoMemory>(())
    /// ```
    #[inline]
    pub fn insert(&mut self, key: K, value: V) -> Result<Option<V>, NoMemory> {
        self.table.upsert(key, value)
    }

    /// Inserts a pair whose key is absent, and returns a mutable reference to its value. O(1).
    ///
    /// # Errors
    ///
    /// The key is present, or an allocation failed. The map is as it was, and the error has the pair.
    ///
    /// ```
    /// use bucket::{Map, Reason};
    ///
    /// let mut map = Map::new();
    /// *map.try_insert(1, 10)? += 1;
    /// let error = map.try_insert(1, 20).unwrap_err();
    /// assert_eq!((error.key, error.value, error.reason), (1, 20, Reason::Present));
    /// assert_eq!(map[&1], 11);
    /// # Ok::<(), bucket::NotInserted<i32, i32>>(())
    /// ```
    #[inline]
    pub fn try_insert(&mut self, key: K, value: V) -> Result<&mut V, NotInserted<K, V>> {
        let address = self.table.insert(key, value)?;
        // SAFETY: the node is in the table, which is borrowed for as long.
        Ok(unsafe { &mut (*at::<K, V>(address)).value })
    }

    /// Removes a key, and returns its value. Allocates nothing. O(1).
    ///
    /// ```
    /// use bucket::Map;
    ///
    /// let mut map = Map::from([("Ann".to_string(), 30)]);
    /// assert_eq!(map.remove("Ann"), Some(30));
    /// assert_eq!(map.remove("Ann"), None);
    /// ```
    #[inline]
    pub fn remove<Q>(&mut self, key: &Q) -> Option<V>
    where
        K: Borrow<Q>,
        Q: ?Sized + KeyForm,
    {
        self.remove_entry(key).map(|(_, value)| value)
    }

    /// Removes a key, and returns it with its value. Allocates nothing. O(1).
    ///
    /// ```
    /// use bucket::Map;
    ///
    /// let mut map = Map::from([("Ann".to_string(), 30)]);
    /// assert_eq!(map.remove_entry("Ann"), Some(("Ann".to_string(), 30)));
    /// ```
    #[inline]
    pub fn remove_entry<Q>(&mut self, key: &Q) -> Option<(K, V)>
    where
        K: Borrow<Q>,
        Q: ?Sized + KeyForm,
    {
        self.table.remove(key).map(|node| node.into_pair())
    }

    /// Returns the entry of a key, to read, fill or remove it. Allocates nothing. O(1).
    ///
    /// ```
    /// use bucket::Map;
    ///
    /// let mut words = Map::new();
    /// for word in ["to", "be", "or", "not", "to", "be"] {
    ///     *words.entry(word).or_insert(0)? += 1;
    /// }
    /// assert_eq!((words["to"], words["or"]), (2, 1));
    /// # Ok::<(), bucket::NoMemory>(())
    /// ```
    #[inline]
    pub fn entry(&mut self, key: K) -> Entry<'_, K, V> {
        Entry::new(&mut self.table, key)
    }

    /// Returns the present key's place, to put an equal key there.
    pub(crate) fn key_mut(&mut self, key: &K) -> Option<&mut K> {
        self.table.get_mut(key).map(|node| &mut node.key)
    }
}
