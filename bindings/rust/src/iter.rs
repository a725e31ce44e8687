//! Iterators over pairs, keys and values. None allocates, and all steps together are O(slots).

use crate::ffi::Handle;
use crate::node::{at, take_back, Held, Rest, Walk};
use crate::table::Table;
use std::fmt;
use std::iter::FusedIterator;
use std::marker::PhantomData;

/// An iterator over pairs, in no particular order. Created by [`Map::iter`](crate::Map::iter) and
/// [`Cache::iter`](crate::Cache::iter).
pub struct Iter<'a, K, V> {
    /// None: there is no collection.
    handle: Option<&'a Handle>,
    walk: Walk,
    left: usize,
    pairs: PhantomData<&'a (K, V)>,
}

impl<'a, K, V> Iter<'a, K, V> {
    pub(crate) fn new<S>(table: &'a Table<S, K, V>) -> Iter<'a, K, V> {
        Iter { handle: Some(table.handle()), walk: Walk::new(), left: table.len(), pairs: PhantomData }
    }
}

impl<'a, K, V> Iterator for Iter<'a, K, V> {
    type Item = (&'a K, &'a V);

    #[inline]
    fn next(&mut self) -> Option<(&'a K, &'a V)> {
        let address = self.walk.next(self.handle?)?;
        self.left -= 1;
        // SAFETY: the node is in the table, which is borrowed for as long.
        let node = unsafe { &*at::<K, V>(address) };
        Some((&node.key, &node.value))
    }

    fn size_hint(&self) -> (usize, Option<usize>) {
        (self.left, Some(self.left))
    }
}

/// Yields nothing.
impl<K, V> Default for Iter<'_, K, V> {
    fn default() -> Self {
        Iter { handle: None, walk: Walk::new(), left: 0, pairs: PhantomData }
    }
}

impl<K, V> Clone for Iter<'_, K, V> {
    fn clone(&self) -> Self {
        Iter { walk: self.walk.clone(), ..*self }
    }
}

/// An iterator over pairs with mutable values, in no particular order. Created by
/// [`Map::iter_mut`](crate::Map::iter_mut) and [`Cache::iter_mut`](crate::Cache::iter_mut).
pub struct IterMut<'a, K, V> {
    /// None: there is no collection.
    handle: Option<&'a mut Handle>,
    walk: Walk,
    left: usize,
    pairs: PhantomData<&'a mut (K, V)>,
}

impl<'a, K, V> IterMut<'a, K, V> {
    pub(crate) fn new<S>(table: &'a mut Table<S, K, V>) -> IterMut<'a, K, V> {
        let left = table.len();
        IterMut { handle: Some(table.handle_mut()), walk: Walk::new(), left, pairs: PhantomData }
    }

    fn rest(&self) -> Iter<'_, K, V> {
        Iter { handle: self.handle.as_deref(), walk: self.walk.clone(), left: self.left, pairs: PhantomData }
    }
}

/// Yields nothing.
impl<K, V> Default for IterMut<'_, K, V> {
    fn default() -> Self {
        IterMut { handle: None, walk: Walk::new(), left: 0, pairs: PhantomData }
    }
}

impl<'a, K, V> Iterator for IterMut<'a, K, V> {
    type Item = (&'a K, &'a mut V);

    #[inline]
    fn next(&mut self) -> Option<(&'a K, &'a mut V)> {
        let address = self.walk.next(self.handle.as_deref()?)?;
        self.left -= 1;
        let node = at::<K, V>(address);
        // SAFETY: the node is in the table, which is borrowed for as long, and comes once.
        Some(unsafe { (&(*node).key, &mut (*node).value) })
    }

    fn size_hint(&self) -> (usize, Option<usize>) {
        (self.left, Some(self.left))
    }
}

/// The remaining nodes of a table that was taken, whose pairs are returned by value.
pub(crate) struct Nodes<K, V> {
    rest: Rest,
    left: usize,
    pairs: PhantomData<(K, V)>,
}

impl<K, V> Nodes<K, V> {
    pub(crate) fn new<S>(table: &mut Table<S, K, V>) -> Nodes<K, V> {
        let left = table.len();
        Nodes { rest: table.take(), left, pairs: PhantomData }
    }

    #[inline]
    fn next(&mut self) -> Option<(K, V)> {
        let address = self.rest.next()?;
        self.left -= 1;
        // SAFETY: the node was in the table, which no longer exists, and comes once.
        Some(unsafe { take_back::<K, V>(address) }.into_pair())
    }

    fn rest(&self) -> Iter<'_, K, V> {
        Iter { handle: Some(&self.rest.handle), walk: self.rest.walk.clone(), left: self.left, pairs: PhantomData }
    }
}

/// An owning iterator over a collection's pairs, in no particular order. The rest is dropped with it.
pub struct IntoIter<K, V>(pub(crate) Nodes<K, V>);

/// Yields nothing.
impl<K, V> Default for IntoIter<K, V> {
    fn default() -> Self {
        IntoIter(Nodes { rest: Held::closed::<K, V>().take(), left: 0, pairs: PhantomData })
    }
}

/// A draining iterator over a collection's pairs, in no particular order. Created by
/// [`Map::drain`](crate::Map::drain). The rest is dropped with it.
pub struct Drain<'a, K, V> {
    nodes: Nodes<K, V>,
    table: PhantomData<&'a mut (K, V)>,
}

impl<'a, K, V> Drain<'a, K, V> {
    pub(crate) fn new<S>(table: &'a mut Table<S, K, V>) -> Drain<'a, K, V> {
        Drain { nodes: Nodes::new(table), table: PhantomData }
    }

    pub(crate) fn rest(&self) -> Iter<'_, K, V> {
        self.nodes.rest()
    }
}

impl<K, V> IntoIter<K, V> {
    fn rest(&self) -> Iter<'_, K, V> {
        self.0.rest()
    }
}

impl<K, V> Iterator for IntoIter<K, V> {
    type Item = (K, V);

    #[inline]
    fn next(&mut self) -> Option<(K, V)> {
        self.0.next()
    }

    fn size_hint(&self) -> (usize, Option<usize>) {
        (self.0.left, Some(self.0.left))
    }
}

impl<K, V> Iterator for Drain<'_, K, V> {
    type Item = (K, V);

    #[inline]
    fn next(&mut self) -> Option<(K, V)> {
        self.nodes.next()
    }

    fn size_hint(&self) -> (usize, Option<usize>) {
        (self.nodes.left, Some(self.nodes.left))
    }
}

/// An iterator over one half of what another iterator yields.
macro_rules! halves {
    ($($(#[$about:meta])* $name:ident<$($a:lifetime)?>: $whole:ident, $item:ty, $half:tt;)*) => { $(
        $(#[$about])*
        pub struct $name<$($a,)? K, V>(pub(crate) $whole<$($a,)? K, V>);

        impl<$($a,)? K, V> Iterator for $name<$($a,)? K, V> {
            type Item = $item;

            #[inline]
            fn next(&mut self) -> Option<$item> {
                self.0.next().map(|pair| pair.$half)
            }

            fn size_hint(&self) -> (usize, Option<usize>) {
                self.0.size_hint()
            }
        }

        impl<$($a,)? K, V> ExactSizeIterator for $name<$($a,)? K, V> {}
        impl<$($a,)? K, V> FusedIterator for $name<$($a,)? K, V> {}

        /// Yields nothing.
        impl<$($a,)? K, V> Default for $name<$($a,)? K, V> {
            fn default() -> Self {
                $name($whole::default())
            }
        }

        impl<$($a,)? K: fmt::Debug, V: fmt::Debug> fmt::Debug for $name<$($a,)? K, V> {
            fn fmt(&self, f: &mut fmt::Formatter<'_>) -> fmt::Result {
                f.debug_list().entries(self.0.rest().map(|pair| pair.$half)).finish()
            }
        }
    )* };
}

halves! {
    /// An iterator over keys, in no particular order. Created by [`Map::keys`](crate::Map::keys).
    Keys<'a>: Iter, &'a K, 0;
    /// An iterator over values, in no particular order. Created by [`Map::values`](crate::Map::values).
    Values<'a>: Iter, &'a V, 1;
    /// An iterator over mutable values, in no particular order. Created by
    /// [`Map::values_mut`](crate::Map::values_mut).
    ValuesMut<'a>: IterMut, &'a mut V, 1;
    /// An owning iterator over a map's keys. Created by [`Map::into_keys`](crate::Map::into_keys).
    IntoKeys<>: IntoIter, K, 0;
    /// An owning iterator over a map's values. Created by [`Map::into_values`](crate::Map::into_values).
    IntoValues<>: IntoIter, V, 1;
}

impl<K, V> Iter<'_, K, V> {
    fn rest(&self) -> Iter<'_, K, V> {
        self.clone()
    }
}

impl<K, V> Clone for Keys<'_, K, V> {
    fn clone(&self) -> Self {
        Keys(self.0.clone())
    }
}

impl<K, V> Clone for Values<'_, K, V> {
    fn clone(&self) -> Self {
        Values(self.0.clone())
    }
}

macro_rules! wholes {
    ($($name:ident<$($a:lifetime)?>),*) => { $(
        impl<K, V> ExactSizeIterator for $name<$($a,)? K, V> {}
        impl<K, V> FusedIterator for $name<$($a,)? K, V> {}

        impl<K: fmt::Debug, V: fmt::Debug> fmt::Debug for $name<$($a,)? K, V> {
            fn fmt(&self, f: &mut fmt::Formatter<'_>) -> fmt::Result {
                f.debug_list().entries(self.rest()).finish()
            }
        }
    )* };
}

wholes!(Iter<'_>, IterMut<'_>, IntoIter<>, Drain<'_>);
