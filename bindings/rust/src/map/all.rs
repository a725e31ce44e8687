//! Calls that go through all pairs.

use super::{Drain, IntoIter, IntoKeys, IntoValues, Iter, IterMut, Keys, Map, Values, ValuesMut};
use crate::iter::Nodes;
use crate::table::Sieve;
use crate::Key;
use std::fmt;
use std::iter::FusedIterator;

impl<K, V> Map<K, V> {
    /// Returns an iterator over the pairs, in no particular order. All steps together are O(slots), and allocate
    /// nothing.
    ///
    /// ```
    /// use bucket::Map;
    ///
    /// let map = Map::from([(1, 10), (2, 20)]);
    /// assert_eq!(map.iter().map(|(key, value)| key + value).sum::<i32>(), 33);
    /// ```
    pub fn iter(&self) -> Iter<'_, K, V> {
        Iter::new(&self.table)
    }

    /// Returns an iterator over the pairs with mutable values, in no particular order.
    ///
    /// ```
    /// use bucket::Map;
    ///
    /// let mut map = Map::from([(1, 10), (2, 20)]);
    /// for (key, value) in map.iter_mut() {
    ///     *value += key;
    /// }
    /// assert_eq!(map, Map::from([(1, 11), (2, 22)]));
    /// ```
    pub fn iter_mut(&mut self) -> IterMut<'_, K, V> {
        IterMut::new(&mut self.table)
    }

    /// Returns an iterator over the keys, in no particular order.
    ///
    /// ```
    /// assert_eq!(bucket::Map::from([(1, 'a'), (2, 'b')]).keys().max(), Some(&2));
    /// ```
    pub fn keys(&self) -> Keys<'_, K, V> {
        Keys(self.iter())
    }

    /// Returns an iterator over the values, in no particular order.
    ///
    /// ```
    /// assert_eq!(bucket::Map::from([(1, 'a'), (2, 'b')]).values().max(), Some(&'b'));
    /// ```
    pub fn values(&self) -> Values<'_, K, V> {
        Values(self.iter())
    }

    /// Returns an iterator over the values, mutably, in no particular order.
    ///
    /// ```
    /// use bucket::Map;
    ///
    /// let mut map = Map::from([(1, 10), (2, 20)]);
    /// map.values_mut().for_each(|value| *value *= 2);
    /// assert_eq!(map[&2], 40);
    /// ```
    pub fn values_mut(&mut self) -> ValuesMut<'_, K, V> {
        ValuesMut(self.iter_mut())
    }

    /// Returns an iterator over the keys by value; the values are dropped.
    ///
    /// ```
    /// use bucket::Map;
    ///
    /// let mut names: Vec<String> = Map::from([("b".to_string(), 1), ("a".to_string(), 2)]).into_keys().collect();
    /// names.sort();
    /// assert_eq!(names, ["a", "b"]);
    /// ```
    pub fn into_keys(self) -> IntoKeys<K, V> {
        IntoKeys(self.into_iter())
    }

    /// Returns an iterator over the values by value; the keys are dropped.
    ///
    /// ```
    /// use bucket::Map;
    ///
    /// assert_eq!(Map::from([(1, "one".to_string())]).into_values().next(), Some("one".to_string()));
    /// ```
    pub fn into_values(self) -> IntoValues<K, V> {
        IntoValues(self.into_iter())
    }

    /// Removes all pairs, and returns an iterator over them. The map is empty at once, and has no slots; what isn't
    /// taken is dropped with the iterator. If that is leaked, so are the pairs that are left.
    ///
    /// ```
    /// use bucket::Map;
    ///
    /// let mut map = Map::from([(1, "one".to_string())]);
    /// assert_eq!(map.drain().collect::<Vec<_>>(), [(1, "one".to_string())]);
    /// assert!(map.is_empty());
    /// ```
    pub fn drain(&mut self) -> Drain<'_, K, V> {
        Drain::new(&mut self.table)
    }

    /// Drops all pairs and slots. The seed stays, and so does the room that `with_capacity` asked for.
    ///
    /// ```
    /// let mut map = bucket::Map::from([(1, 2)]);
    /// map.clear();
    /// assert!(map.is_empty());
    /// ```
    pub fn clear(&mut self) {
        drop(self.table.take())
    }
}

impl<K: Key, V> Map<K, V> {
    /// Keeps the pairs for which `keeps` returns `true`, and drops the others, once it has been called for all. If it
    /// panics, those for which it returned `false` are dropped, and the others stay. Allocates nothing. O(slots).
    ///
    /// ```
    /// use bucket::Map;
    ///
    /// let mut map: Map<u32, u32> = (0..8).map(|number| (number, number * 10)).collect();
    /// map.retain(|key, value| {
    ///     *value += 1;
    ///     key % 4 == 0
    /// });
    /// assert_eq!(map, Map::from([(0, 1), (4, 41)]));
    /// ```
    pub fn retain(&mut self, keeps: impl FnMut(&K, &mut V) -> bool) {
        self.table.retain(keeps)
    }

    /// Removes and returns the pairs for which `takes` returns `true`, one per step. A pair for which it wasn't
    /// called stays, also if the iterator is dropped or leaked before its end. Allocates nothing. O(slots).
    ///
    /// ```
    /// use bucket::Map;
    ///
    /// let mut map: Map<u32, char> = (0..).zip("abcdef".chars()).collect();
    /// let mut even: Vec<_> = map.extract_if(|key, _| key % 2 == 0).collect();
    /// even.sort();
    /// assert_eq!(even, [(0, 'a'), (2, 'c'), (4, 'e')]);
    /// assert_eq!(map.len(), 3);
    /// ```
    pub fn extract_if<F>(&mut self, takes: F) -> ExtractIf<'_, K, V, F>
    where
        F: FnMut(&K, &mut V) -> bool,
    {
        ExtractIf { sieve: self.sieve(), takes }
    }

    pub(crate) fn sieve(&mut self) -> Sieve<'_, K, V> {
        Sieve::new(&mut self.table)
    }
}

/// An iterator over the pairs that a closure removes from a map. Created by [`Map::extract_if`].
#[must_use = "iterators are lazy: use `retain` if the removed pairs aren't needed"]
pub struct ExtractIf<'a, K, V, F> {
    sieve: Sieve<'a, K, V>,
    takes: F,
}

impl<K: Key, V, F> Iterator for ExtractIf<'_, K, V, F>
where
    F: FnMut(&K, &mut V) -> bool,
{
    type Item = (K, V);

    fn next(&mut self) -> Option<(K, V)> {
        self.sieve.next(&mut self.takes).map(|node| node.into_pair())
    }

    fn size_hint(&self) -> (usize, Option<usize>) {
        (0, Some(self.sieve.len()))
    }
}

impl<K: Key, V, F> FusedIterator for ExtractIf<'_, K, V, F> where F: FnMut(&K, &mut V) -> bool {}

impl<K, V, F> fmt::Debug for ExtractIf<'_, K, V, F> {
    fn fmt(&self, f: &mut fmt::Formatter<'_>) -> fmt::Result {
        f.debug_struct("ExtractIf").finish_non_exhaustive()
    }
}

impl<'a, K, V> IntoIterator for &'a Map<K, V> {
    type Item = (&'a K, &'a V);
    type IntoIter = Iter<'a, K, V>;

    fn into_iter(self) -> Iter<'a, K, V> {
        self.iter()
    }
}

impl<'a, K, V> IntoIterator for &'a mut Map<K, V> {
    type Item = (&'a K, &'a mut V);
    type IntoIter = IterMut<'a, K, V>;

    fn into_iter(self) -> IterMut<'a, K, V> {
        self.iter_mut()
    }
}

/// ```
/// use bucket::Map;
///
/// for (name, age) in Map::from([("Ann".to_string(), 30)]) {
///     assert_eq!((name, age), ("Ann".to_string(), 30));
/// }
/// ```
impl<K, V> IntoIterator for Map<K, V> {
    type Item = (K, V);
    type IntoIter = IntoIter<K, V>;

    fn into_iter(mut self) -> IntoIter<K, V> {
        IntoIter(Nodes::new(&mut self.table))
    }
}
