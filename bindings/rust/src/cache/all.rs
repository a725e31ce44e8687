//! Calls that go through all pairs, and std's traits.

use super::{Cache, Drain, IntoIter, Iter, IterMut};
use crate::iter::Nodes;
use crate::{Key, Map, NoMemory};
use std::fmt;

impl<K, V> Cache<K, V> {
    /// Returns an iterator over the pairs, in no particular order; none is touched. All steps together are O(slots),
    /// and allocate nothing.
    ///
    /// ```
    /// let mut cache = bucket::Cache::new(64)?;
    /// cache.put(1, 10)?;
    /// assert_eq!(cache.iter().collect::<Vec<_>>(), [(&1, &10)]);
    /// # Ok::<(), bucket::NoMemory>(())
    /// ```
    pub fn iter(&self) -> Iter<'_, K, V> {
        Iter::new(&self.table)
    }

    /// Returns an iterator over the pairs with mutable values, in no particular order; none is touched.
    ///
    /// ```
    /// let mut cache = bucket::Cache::new(64)?;
    /// cache.put(1, 10)?;
    /// for (_, value) in cache.iter_mut() {
    ///     *value += 1;
    /// }
    /// assert_eq!(cache.peek(&1), Some(&11));
    /// # Ok::<(), bucket::NoMemory>(())
    /// ```
    pub fn iter_mut(&mut self) -> IterMut<'_, K, V> {
        IterMut::new(&mut self.table)
    }

    /// Removes all pairs, and returns an iterator over them. The cache is empty at once, and has no slots; what isn't
    /// taken is dropped with the iterator.
    ///
    /// ```
    /// let mut cache = bucket::Cache::new(64)?;
    /// cache.put(1, 10)?;
    /// assert_eq!(cache.drain().collect::<Vec<_>>(), [(1, 10)]);
    /// assert!(cache.is_empty());
    /// # Ok::<(), bucket::NoMemory>(())
    /// ```
    pub fn drain(&mut self) -> Drain<'_, K, V> {
        Drain::new(&mut self.table)
    }

    /// Drops all pairs and slots; the seed and the bounds stay.
    ///
    /// ```
    /// let mut cache = bucket::Cache::new(64)?;
    /// cache.put(1, 10)?;
    /// cache.clear();
    /// assert_eq!((cache.len(), cache.cap()), (0, 64));
    /// # Ok::<(), bucket::NoMemory>(())
    /// ```
    pub fn clear(&mut self) {
        drop(self.table.take())
    }
}

impl<K: Key, V> Cache<K, V> {
    /// Keeps the pairs for which `keeps` returns `true`, and drops the others, once it has been called for all. If it
    /// panics, those for which it returned `false` are dropped, and the others stay. Touches no pair, allocating
    /// nothing. O(slots).
    ///
    /// ```
    /// let mut cache = bucket::Cache::new(64)?;
    /// cache.try_extend([(1, 10), (2, 20)])?;
    /// cache.retain(|_, value| *value > 10);
    /// assert_eq!(cache.iter().collect::<Vec<_>>(), [(&2, &20)]);
    /// # Ok::<(), bucket::NoMemory>(())
    /// ```
    pub fn retain(&mut self, keeps: impl FnMut(&K, &mut V) -> bool) {
        self.table.retain(keeps)
    }

    /// Puts pairs, in their order; those that leave the cache for them are dropped.
    ///
    /// # Errors
    ///
    /// An allocation failed: the pairs before that one were put, it is dropped, and those after it weren't requested.
    ///
    /// ```
    /// let mut cache = bucket::Cache::new(64)?;
    /// cache.try_extend([(1, 10), (2, 20)])?;
    /// assert_eq!(cache.len(), 2);
    /// # Ok::<(), bucket::NoMemory>(())
    /// ```
    pub fn try_extend(&mut self, pairs: impl IntoIterator<Item = (K, V)>) -> Result<(), NoMemory> {
        pairs.into_iter().try_for_each(|(key, value)| self.put(key, value).map(drop))
    }
}

/// Calls [`handle_alloc_error`](std::alloc::handle_alloc_error) if an allocation fails; [`Cache::try_extend`] returns
/// an error instead.
impl<K: Key, V> Extend<(K, V)> for Cache<K, V> {
    fn extend<I: IntoIterator<Item = (K, V)>>(&mut self, pairs: I) {
        Map::<K, V>::unfailing(self.try_extend(pairs))
    }
}

impl<K: fmt::Debug, V: fmt::Debug> fmt::Debug for Cache<K, V> {
    fn fmt(&self, f: &mut fmt::Formatter<'_>) -> fmt::Result {
        f.debug_map().entries(self).finish()
    }
}

impl<'a, K, V> IntoIterator for &'a Cache<K, V> {
    type Item = (&'a K, &'a V);
    type IntoIter = Iter<'a, K, V>;

    fn into_iter(self) -> Iter<'a, K, V> {
        self.iter()
    }
}

impl<'a, K, V> IntoIterator for &'a mut Cache<K, V> {
    type Item = (&'a K, &'a mut V);
    type IntoIter = IterMut<'a, K, V>;

    fn into_iter(self) -> IterMut<'a, K, V> {
        self.iter_mut()
    }
}

impl<K, V> IntoIterator for Cache<K, V> {
    type Item = (K, V);
    type IntoIter = IntoIter<K, V>;

    fn into_iter(mut self) -> IntoIter<K, V> {
        IntoIter(Nodes::new(&mut self.table))
    }
}
