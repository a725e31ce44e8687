//! std's traits. Where one allocates, a failed allocation ends as in std's collections.

use super::Set;
use crate::{Key, Map};
use std::fmt;

impl<K> Default for Set<K> {
    fn default() -> Set<K> {
        Set::new()
    }
}

impl<K: fmt::Debug> fmt::Debug for Set<K> {
    fn fmt(&self, f: &mut fmt::Formatter<'_>) -> fmt::Result {
        f.debug_set().entries(self).finish()
    }
}

/// Two sets are equal if they have the same keys, with any seeds.
impl<K: Key> PartialEq for Set<K> {
    fn eq(&self, other: &Set<K>) -> bool {
        self.len() == other.len() && self.is_subset(other)
    }
}

impl<K: Key> Eq for Set<K> {}

/// Calls [`handle_alloc_error`](std::alloc::handle_alloc_error) if an allocation fails; [`Set::try_clone`] returns an
/// error instead.
impl<K: Key> Clone for Set<K> {
    fn clone(&self) -> Set<K> {
        Set { map: self.map.clone() }
    }
}

/// Calls [`handle_alloc_error`](std::alloc::handle_alloc_error) if an allocation fails; [`Set::try_from_iter`]
/// returns an error instead.
impl<K: Key> FromIterator<K> for Set<K> {
    fn from_iter<I: IntoIterator<Item = K>>(keys: I) -> Set<K> {
        Map::<K, ()>::unfailing(Set::try_from_iter(keys))
    }
}

/// Calls [`handle_alloc_error`](std::alloc::handle_alloc_error) if an allocation fails; [`Set::try_from_iter`]
/// returns an error instead.
impl<K: Key, const N: usize> From<[K; N]> for Set<K> {
    fn from(keys: [K; N]) -> Set<K> {
        Set::from_iter(keys)
    }
}

/// Calls [`handle_alloc_error`](std::alloc::handle_alloc_error) if an allocation fails; [`Set::try_extend`] returns
/// an error instead.
impl<K: Key> Extend<K> for Set<K> {
    fn extend<I: IntoIterator<Item = K>>(&mut self, keys: I) {
        Map::<K, ()>::unfailing(self.try_extend(keys))
    }
}

/// Calls [`handle_alloc_error`](std::alloc::handle_alloc_error) if an allocation fails; [`Set::try_extend`] returns
/// an error instead.
impl<'a, K: Key + Copy + 'a> Extend<&'a K> for Set<K> {
    fn extend<I: IntoIterator<Item = &'a K>>(&mut self, keys: I) {
        self.extend(keys.into_iter().copied())
    }
}
