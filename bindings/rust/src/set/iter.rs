//! Iterators over keys. None allocates, and all steps together are O(slots).

use super::Set;
use crate::map::{self, Map};
use crate::table::Sieve;
use crate::Key;
use std::fmt;
use std::iter::FusedIterator;

/// An iterator over keys, in no particular order. Created by [`Set::iter`].
pub struct Iter<'a, K>(pub(super) map::Keys<'a, K, ()>);

/// An owning iterator over a set's keys, in no particular order.
pub struct IntoIter<K>(pub(super) map::IntoKeys<K, ()>);

/// A draining iterator over a set's keys, in no particular order. Created by [`Set::drain`].
pub struct Drain<'a, K>(pub(super) map::Drain<'a, K, ()>);

/// An iterator over the keys that a closure removes from a set. Created by [`Set::extract_if`].
#[must_use = "iterators are lazy: use `retain` if the removed keys aren't needed"]
pub struct ExtractIf<'a, K, F> {
    sieve: Sieve<'a, K, ()>,
    takes: F,
}

impl<'a, K: Key, F> ExtractIf<'a, K, F> {
    pub(super) fn new(map: &'a mut Map<K, ()>, takes: F) -> ExtractIf<'a, K, F> {
        ExtractIf { sieve: map.sieve(), takes }
    }
}

impl<'a, K> Iterator for Iter<'a, K> {
    type Item = &'a K;

    #[inline]
    fn next(&mut self) -> Option<&'a K> {
        self.0.next()
    }

    fn size_hint(&self) -> (usize, Option<usize>) {
        self.0.size_hint()
    }
}

impl<K> Iterator for IntoIter<K> {
    type Item = K;

    #[inline]
    fn next(&mut self) -> Option<K> {
        self.0.next()
    }

    fn size_hint(&self) -> (usize, Option<usize>) {
        self.0.size_hint()
    }
}

impl<K> Iterator for Drain<'_, K> {
    type Item = K;

    #[inline]
    fn next(&mut self) -> Option<K> {
        self.0.next().map(|(key, ())| key)
    }

    fn size_hint(&self) -> (usize, Option<usize>) {
        self.0.size_hint()
    }
}

impl<K: Key, F: FnMut(&K) -> bool> Iterator for ExtractIf<'_, K, F> {
    type Item = K;

    fn next(&mut self) -> Option<K> {
        let takes = &mut self.takes;
        self.sieve.next(|key, ()| takes(key)).map(|node| node.key)
    }

    fn size_hint(&self) -> (usize, Option<usize>) {
        (0, Some(self.sieve.len()))
    }
}

impl<K> ExactSizeIterator for Iter<'_, K> {}
impl<K> ExactSizeIterator for IntoIter<K> {}
impl<K> ExactSizeIterator for Drain<'_, K> {}
impl<K> FusedIterator for Iter<'_, K> {}
impl<K> FusedIterator for IntoIter<K> {}
impl<K> FusedIterator for Drain<'_, K> {}
impl<K: Key, F: FnMut(&K) -> bool> FusedIterator for ExtractIf<'_, K, F> {}

/// Yields nothing.
impl<K> Default for Iter<'_, K> {
    fn default() -> Self {
        Iter(map::Keys::default())
    }
}

/// Yields nothing.
impl<K> Default for IntoIter<K> {
    fn default() -> Self {
        IntoIter(map::IntoKeys::default())
    }
}

impl<K> Clone for Iter<'_, K> {
    fn clone(&self) -> Self {
        Iter(self.0.clone())
    }
}

impl<K: fmt::Debug> fmt::Debug for Iter<'_, K> {
    fn fmt(&self, f: &mut fmt::Formatter<'_>) -> fmt::Result {
        self.0.fmt(f)
    }
}

impl<K: fmt::Debug> fmt::Debug for IntoIter<K> {
    fn fmt(&self, f: &mut fmt::Formatter<'_>) -> fmt::Result {
        self.0.fmt(f)
    }
}

impl<K: fmt::Debug> fmt::Debug for Drain<'_, K> {
    fn fmt(&self, f: &mut fmt::Formatter<'_>) -> fmt::Result {
        f.debug_list().entries(self.0.rest().map(|(key, ())| key)).finish()
    }
}

impl<K, F> fmt::Debug for ExtractIf<'_, K, F> {
    fn fmt(&self, f: &mut fmt::Formatter<'_>) -> fmt::Result {
        f.debug_struct("ExtractIf").finish_non_exhaustive()
    }
}

impl<'a, K> IntoIterator for &'a Set<K> {
    type Item = &'a K;
    type IntoIter = Iter<'a, K>;

    fn into_iter(self) -> Iter<'a, K> {
        self.iter()
    }
}

/// ```
/// for name in bucket::Set::from(["Ann".to_string()]) {
///     assert_eq!(name, "Ann".to_string());
/// }
/// ```
impl<K> IntoIterator for Set<K> {
    type Item = K;
    type IntoIter = IntoIter<K>;

    fn into_iter(self) -> IntoIter<K> {
        IntoIter(self.map.into_keys())
    }
}
