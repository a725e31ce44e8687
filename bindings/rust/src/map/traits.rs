//! std's traits. Where one makes pairs, a failed allocation ends as in std's collections.

use super::Map;
use crate::node::Node;
use crate::{Key, KeyForm, NoMemory};
use std::alloc::{handle_alloc_error, Layout};
use std::borrow::Borrow;
use std::fmt;
use std::ops::Index;

impl<K, V> Map<K, V> {
    /// Unwraps the result of a call that a trait doesn't allow to fail.
    pub(crate) fn unfailing<T>(answer: Result<T, NoMemory>) -> T {
        answer.unwrap_or_else(|NoMemory| handle_alloc_error(Layout::new::<Node<K, V>>()))
    }
}

impl<K, V> Default for Map<K, V> {
    fn default() -> Map<K, V> {
        Map::new()
    }
}

impl<K: fmt::Debug, V: fmt::Debug> fmt::Debug for Map<K, V> {
    fn fmt(&self, f: &mut fmt::Formatter<'_>) -> fmt::Result {
        f.debug_map().entries(self).finish()
    }
}

/// Two maps are equal if they have the same pairs, with any seeds.
impl<K: Key, V: PartialEq> PartialEq for Map<K, V> {
    fn eq(&self, other: &Map<K, V>) -> bool {
        self.len() == other.len() && self.iter().all(|(key, value)| other.get(key) == Some(value))
    }
}

impl<K: Key, V: Eq> Eq for Map<K, V> {}

/// Returns the value of a key that is present.
///
/// # Panics
///
/// If the key is absent.
///
/// ```
/// assert_eq!(bucket::Map::from([("Ann".to_string(), 30)])["Ann"], 30);
/// ```
impl<K, Q, V> Index<&Q> for Map<K, V>
where
    K: Key + Borrow<Q>,
    Q: ?Sized + KeyForm,
{
    type Output = V;

    #[inline]
    fn index(&self, key: &Q) -> &V {
        self.get(key).expect("no entry found for key")
    }
}

/// Calls [`handle_alloc_error`] if an allocation fails; [`Map::try_clone`] returns an error instead.
impl<K: Key, V: Clone> Clone for Map<K, V> {
    fn clone(&self) -> Map<K, V> {
        Self::unfailing(self.try_clone())
    }
}

/// Calls [`handle_alloc_error`] if an allocation fails; [`Map::try_from_iter`] returns an error instead.
impl<K: Key, V> FromIterator<(K, V)> for Map<K, V> {
    fn from_iter<I: IntoIterator<Item = (K, V)>>(pairs: I) -> Map<K, V> {
        Self::unfailing(Map::try_from_iter(pairs))
    }
}

/// Calls [`handle_alloc_error`] if an allocation fails; [`Map::try_from_iter`] returns an error instead.
impl<K: Key, V, const N: usize> From<[(K, V); N]> for Map<K, V> {
    fn from(pairs: [(K, V); N]) -> Map<K, V> {
        Map::from_iter(pairs)
    }
}

/// Calls [`handle_alloc_error`] if an allocation fails; [`Map::try_extend`] returns an error instead.
impl<K: Key, V> Extend<(K, V)> for Map<K, V> {
    fn extend<I: IntoIterator<Item = (K, V)>>(&mut self, pairs: I) {
        Self::unfailing(self.try_extend(pairs))
    }
}

/// Calls [`handle_alloc_error`] if an allocation fails; [`Map::try_extend`] returns an error instead.
impl<'a, K: Key + Copy, V: Copy> Extend<(&'a K, &'a V)> for Map<K, V> {
    fn extend<I: IntoIterator<Item = (&'a K, &'a V)>>(&mut self, pairs: I) {
        self.extend(pairs.into_iter().map(|(key, value)| (*key, *value)))
    }
}
