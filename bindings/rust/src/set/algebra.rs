//! Calls on two sets.

use super::{Iter, Set};
use crate::Key;
use std::fmt;
use std::iter::{Chain, FusedIterator};
use std::ops::{BitAnd, BitOr, BitXor, Sub};

/// An iterator over the keys that are in both sets. Created by [`Set::intersection`].
pub struct Intersection<'a, K> {
    keys: Iter<'a, K>,
    other: &'a Set<K>,
}

/// An iterator over the keys that are in the first set only. Created by [`Set::difference`].
pub struct Difference<'a, K> {
    keys: Iter<'a, K>,
    other: &'a Set<K>,
}

/// An iterator over the keys that are in either set. Created by [`Set::union`].
pub struct Union<'a, K>(Chain<Iter<'a, K>, Difference<'a, K>>);

/// An iterator over the keys that are in exactly one set. Created by [`Set::symmetric_difference`].
pub struct SymmetricDifference<'a, K>(Chain<Difference<'a, K>, Difference<'a, K>>);

impl<K: Key> Set<K> {
    /// Returns an iterator over the keys in both, as this set or `other` stores them. O(slots of the smaller set).
    ///
    /// ```
    /// use bucket::Set;
    ///
    /// let (a, b) = (Set::from([1, 2, 3]), Set::from([2, 3, 4]));
    /// assert_eq!(a.intersection(&b).sum::<i32>(), 5);
    /// ```
    pub fn intersection<'a>(&'a self, other: &'a Set<K>) -> Intersection<'a, K> {
        let (fewer, more) = if self.len() <= other.len() { (self, other) } else { (other, self) };
        Intersection { keys: fewer.iter(), other: more }
    }

    /// Returns an iterator over the keys of this set that aren't in `other`.
    ///
    /// ```
    /// use bucket::Set;
    ///
    /// let (a, b) = (Set::from([1, 2, 3]), Set::from([2, 3, 4]));
    /// assert_eq!(a.difference(&b).collect::<Vec<_>>(), [&1]);
    /// ```
    pub fn difference<'a>(&'a self, other: &'a Set<K>) -> Difference<'a, K> {
        Difference { keys: self.iter(), other }
    }

    /// Returns an iterator over the keys in either set, each once.
    ///
    /// ```
    /// use bucket::Set;
    ///
    /// let (a, b) = (Set::from([1, 2, 3]), Set::from([2, 3, 4]));
    /// assert_eq!(Set::try_from_iter(a.union(&b).copied())?, Set::from([1, 2, 3, 4]));
    /// # Ok::<(), bucket::NoMemory>(())
    /// ```
    pub fn union<'a>(&'a self, other: &'a Set<K>) -> Union<'a, K> {
        let (more, fewer) = if self.len() >= other.len() { (self, other) } else { (other, self) };
        Union(more.iter().chain(fewer.difference(more)))
    }

    /// Returns an iterator over the keys in exactly one of the two sets.
    ///
    /// ```
    /// use bucket::Set;
    ///
    /// let (a, b) = (Set::from([1, 2, 3]), Set::from([2, 3, 4]));
    /// assert_eq!(a.symmetric_difference(&b).sum::<i32>(), 5);
    /// ```
    pub fn symmetric_difference<'a>(&'a self, other: &'a Set<K>) -> SymmetricDifference<'a, K> {
        SymmetricDifference(self.difference(other).chain(other.difference(self)))
    }

    /// Returns `true` if no key is in both sets.
    ///
    /// ```
    /// assert!(bucket::Set::from([1]).is_disjoint(&bucket::Set::from([2])));
    /// ```
    pub fn is_disjoint(&self, other: &Set<K>) -> bool {
        self.intersection(other).next().is_none()
    }

    /// Returns `true` if each key of this set is in `other`.
    ///
    /// ```
    /// assert!(bucket::Set::from([1]).is_subset(&bucket::Set::from([1, 2])));
    /// ```
    pub fn is_subset(&self, other: &Set<K>) -> bool {
        self.len() <= other.len() && self.iter().all(|key| other.contains(key))
    }

    /// Returns `true` if each key of `other` is in this set.
    ///
    /// ```
    /// assert!(bucket::Set::from([1, 2]).is_superset(&bucket::Set::from([1])));
    /// ```
    pub fn is_superset(&self, other: &Set<K>) -> bool {
        other.is_subset(self)
    }
}

impl<'a, K: Key> Iterator for Intersection<'a, K> {
    type Item = &'a K;

    fn next(&mut self) -> Option<&'a K> {
        self.keys.find(|key| self.other.contains(*key))
    }

    fn size_hint(&self) -> (usize, Option<usize>) {
        (0, Some(self.keys.len()))
    }
}

impl<'a, K: Key> Iterator for Difference<'a, K> {
    type Item = &'a K;

    fn next(&mut self) -> Option<&'a K> {
        self.keys.find(|key| !self.other.contains(*key))
    }

    fn size_hint(&self) -> (usize, Option<usize>) {
        (0, Some(self.keys.len()))
    }
}

macro_rules! chains {
    ($($name:ident),*) => { $(
        impl<'a, K: Key> Iterator for $name<'a, K> {
            type Item = &'a K;

            fn next(&mut self) -> Option<&'a K> {
                self.0.next()
            }

            fn size_hint(&self) -> (usize, Option<usize>) {
                self.0.size_hint()
            }
        }

        impl<K> Clone for $name<'_, K> {
            fn clone(&self) -> Self {
                $name(self.0.clone())
            }
        }
    )* };
}

chains!(Union, SymmetricDifference);

impl<K> Clone for Intersection<'_, K> {
    fn clone(&self) -> Self {
        Intersection { keys: self.keys.clone(), other: self.other }
    }
}

impl<K> Clone for Difference<'_, K> {
    fn clone(&self) -> Self {
        Difference { keys: self.keys.clone(), other: self.other }
    }
}

macro_rules! shown {
    ($($name:ident),*) => { $(
        impl<K: Key> FusedIterator for $name<'_, K> {}

        impl<K: Key + fmt::Debug> fmt::Debug for $name<'_, K> {
            fn fmt(&self, f: &mut fmt::Formatter<'_>) -> fmt::Result {
                f.debug_list().entries(self.clone()).finish()
            }
        }
    )* };
}

shown!(Intersection, Difference, Union, SymmetricDifference);

macro_rules! operators {
    ($($(#[$about:meta])* $name:ident $call:ident $iterator:ident;)*) => { $(
        $(#[$about])*
        ///
        /// Calls [`handle_alloc_error`](std::alloc::handle_alloc_error) if an allocation fails;
        /// [`Set::try_from_iter`] of copied keys returns an error instead.
        impl<K: Key + Clone> $name<&Set<K>> for &Set<K> {
            type Output = Set<K>;

            fn $call(self, other: &Set<K>) -> Set<K> {
                self.$iterator(other).cloned().collect()
            }
        }
    )* };
}

operators! {
    /// Returns a set of the keys in either set.
    ///
    /// ```
    /// use bucket::Set;
    ///
    /// assert_eq!(&Set::from([1, 2]) | &Set::from([2, 3]), Set::from([1, 2, 3]));
    /// ```
    BitOr bitor union;
    /// Returns a set of the keys in both sets.
    ///
    /// ```
    /// use bucket::Set;
    ///
    /// assert_eq!(&Set::from([1, 2]) & &Set::from([2, 3]), Set::from([2]));
    /// ```
    BitAnd bitand intersection;
    /// Returns a set of the keys in exactly one of the two sets.
    ///
    /// ```
    /// use bucket::Set;
    ///
    /// assert_eq!(&Set::from([1, 2]) ^ &Set::from([2, 3]), Set::from([1, 3]));
    /// ```
    BitXor bitxor symmetric_difference;
    /// Returns a set of the keys in the first set only.
    ///
    /// ```
    /// use bucket::Set;
    ///
    /// assert_eq!(&Set::from([1, 2]) - &Set::from([2, 3]), Set::from([1]));
    /// ```
    Sub sub difference;
}
