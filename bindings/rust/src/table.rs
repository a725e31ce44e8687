//! A table of nodes: what maps and caches have in common.

use crate::ffi::*;
use crate::kind::{Caches, Kind, Maps};
use crate::node::{at, for_all, take_back, Held, List, Node, Rest, Walk};
use crate::{Key, KeyForm, NoMemory, NotInserted, Reason, Seed};
use std::marker::PhantomData;
use std::mem::replace;
use std::panic::{catch_unwind, resume_unwind, AssertUnwindSafe};

/// A table that stores the address of a node under the node's key. The table owns the nodes, and stores each once.
pub(crate) struct Table<S, K, V> {
    held: Held,
    len: usize,
    pub kind: S,
    /// None: a random one, drawn when the handle is opened.
    seed: Option<Seed>,
    pairs: PhantomData<(K, V)>,
}

/// What happened to a node that was to be inserted.
pub(crate) enum Placed<K, V> {
    /// It was inserted; this is its address.
    Inserted(u64),
    /// The key is present, in the node at this address.
    Present(u64, Box<Node<K, V>>),
    /// An allocation failed.
    NoMemory(Box<Node<K, V>>),
}

/// The address of a node that was put, and the pair that left the cache for it.
pub(crate) type Put<K, V> = (u64, Option<(K, V)>);

impl<S, K, V> Table<S, K, V> {
    /// An empty table, whose handle is closed until the first insertion.
    pub const fn new(kind: S, seed: Option<Seed>) -> Table<S, K, V> {
        Table { held: Held::closed::<K, V>(), len: 0, kind, seed, pairs: PhantomData }
    }

    #[inline(always)]
    pub fn len(&self) -> usize {
        self.len
    }

    pub fn handle(&self) -> &Handle {
        &self.held.handle
    }

    pub fn handle_mut(&mut self) -> &mut Handle {
        &mut self.held.handle
    }

    /// Takes all nodes out. The table is then empty, and its handle closed.
    pub fn take(&mut self) -> Rest {
        self.len = 0;
        self.held.take()
    }

    /// Returns the current number of slots.
    pub fn slots(&self) -> usize {
        // SAFETY: as in `kind`, here and below.
        unsafe { bucket_capacity(&self.held.handle) }
    }
}

impl<S: Kind, K: Key, V> Table<S, K, V> {
    #[cold]
    pub fn open(&mut self) -> Result<(), NoMemory> {
        let seed = self.seed.unwrap_or_else(Seed::random);
        match self.kind.open(K::IS_TEXT, &mut self.held.handle, seed) {
            OK => Ok(()),
            _ => Err(NoMemory),
        }
    }

    /// Makes a call, and repeats it if the handle was closed and could be opened.
    #[inline(always)]
    fn call(&mut self, mut call: impl FnMut(&mut Handle) -> u32) -> u32 {
        match call(&mut self.held.handle) {
            CLOSED if self.open().is_ok() => call(&mut self.held.handle),
            code => code,
        }
    }

    /// Returns the address of a key's node.
    #[inline]
    pub fn find<Q: ?Sized + KeyForm>(&self, key: &Q) -> Option<u64> {
        let mut address = 0;
        (S::find(&self.held.handle, key.form(), &mut address) == OK).then_some(address)
    }

    #[inline]
    pub fn contains<Q: ?Sized + KeyForm>(&self, key: &Q) -> bool {
        S::contains(&self.held.handle, key.form()) == OK
    }

    #[inline]
    pub fn get<Q: ?Sized + KeyForm>(&self, key: &Q) -> Option<&Node<K, V>> {
        // SAFETY: the node is in the table, which is borrowed for as long.
        self.find(key).map(|address| unsafe { &*at(address) })
    }

    #[inline]
    pub fn get_mut<Q: ?Sized + KeyForm>(&mut self, key: &Q) -> Option<&mut Node<K, V>> {
        // SAFETY: as in `get`.
        self.find(key).map(|address| unsafe { &mut *at(address) })
    }

    #[inline]
    pub fn remove<Q: ?Sized + KeyForm>(&mut self, key: &Q) -> Option<Box<Node<K, V>>> {
        let mut address = 0;
        if S::remove(&mut self.held.handle, key.form(), &mut address) != OK {
            return None;
        }
        self.len -= 1;
        // SAFETY: the node was in the table, which no longer contains it.
        Some(unsafe { take_back(address) })
    }

    /// Removes a node that is in the table.
    ///
    /// # Safety
    ///
    /// The address is that of such a node, and no part of it is borrowed.
    pub unsafe fn unlink(&mut self, address: u64) -> Box<Node<K, V>> {
        let mut held = 0;
        let code = S::remove(&mut self.held.handle, unsafe { (*at::<K, V>(address)).key.form() }, &mut held);
        debug_assert!(code == OK && held == address);
        self.len -= 1;
        unsafe { take_back(address) }
    }

    /// Keeps the nodes for which `keeps` returns `true`, and drops the others, as soon as it has been called for all.
    /// If it panics, those for which it returned `false` are removed.
    pub fn retain(&mut self, mut keeps: impl FnMut(&K, &mut V) -> bool) {
        let mut doomed = List::<K, V>::EMPTY;
        let mut walk = Walk::new();
        let asked = catch_unwind(AssertUnwindSafe(|| {
            while let Some(address) = walk.next(&self.held.handle) {
                // SAFETY: the node is in the table, comes once, and stays until it is popped below.
                unsafe {
                    let node = at::<K, V>(address);
                    if !keeps(&(*node).key, &mut (*node).value) {
                        doomed.push(address);
                    }
                }
            }
        }));
        // SAFETY: the node is in the table.
        for_all(|| doomed.pop(), |address| drop(unsafe { self.unlink(address) }));
        if let Err(panic) = asked {
            resume_unwind(panic);
        }
    }

    /// Inserts copies of all nodes of another table into this one, which is empty.
    pub fn copy_from(
        &mut self,
        other: &Table<S, K, V>,
        mut insert: impl FnMut(&mut Self, K, V) -> Result<(), NoMemory>,
    ) -> Result<(), NoMemory>
    where
        V: Clone,
    {
        let mut walk = Walk::new();
        while let Some(address) = walk.next(&other.held.handle) {
            // SAFETY: the node is in the other table, which is borrowed.
            let node = unsafe { &*at::<K, V>(address) };
            insert(self, node.key.try_copy()?, node.value.clone())?;
        }
        Ok(())
    }

    /// Returns an empty table of the same kind, seed and limits.
    pub fn like(&self) -> Table<S, K, V> {
        Table::new(self.kind, self.seed)
    }
}

impl<K: Key, V> Table<Maps, K, V> {
    /// Inserts a node, unless its key is present.
    #[inline]
    pub fn place(&mut self, node: Box<Node<K, V>>) -> Placed<K, V> {
        let address = Node::into_address(node);
        let mut held = 0;
        // SAFETY: the node exists during the call, and is taken back unless it is in the table afterwards.
        let key = unsafe { (*at::<K, V>(address)).key.form() };
        match self.call(|handle| Maps::get_or_insert(handle, key, address, &mut held)) {
            OK => {
                self.len += 1;
                Placed::Inserted(address)
            }
            PRESENT => Placed::Present(held, unsafe { take_back(address) }),
            _ => Placed::NoMemory(unsafe { take_back(address) }),
        }
    }

    /// Inserts a pair whose key is absent, and returns its node's address; otherwise returns the pair.
    #[inline]
    pub fn insert(&mut self, key: K, value: V) -> Result<u64, NotInserted<K, V>> {
        match Node::new(key, value).map(|node| self.place(node)) {
            Ok(Placed::Inserted(address)) => Ok(address),
            Ok(Placed::Present(_, node)) => Err(NotInserted::new(node.into_pair(), Reason::Present)),
            Ok(Placed::NoMemory(node)) => Err(NotInserted::new(node.into_pair(), Reason::NoMemory)),
            Err(pair) => {
                let reason = if self.contains(&pair.0) { Reason::Present } else { Reason::NoMemory };
                Err(NotInserted::new(pair, reason))
            }
        }
    }

    /// Puts a value under a key, and returns the earlier one; a key that is present stays, and nothing is allocated.
    #[inline]
    pub fn upsert(&mut self, key: K, value: V) -> Result<Option<V>, NoMemory> {
        let (held, value) = match Node::new(key, value).map(|node| self.place(node)) {
            Ok(Placed::Inserted(_)) => return Ok(None),
            Ok(Placed::NoMemory(_)) => return Err(NoMemory),
            Ok(Placed::Present(held, node)) => (held, node.into_pair().1),
            Err((key, value)) => (self.find(&key).ok_or(NoMemory)?, value),
        };
        // SAFETY: the node is in the table.
        Ok(Some(replace(unsafe { &mut (*at::<K, V>(held)).value }, value)))
    }

    pub fn reserve(&mut self, additional: usize) -> Result<(), NoMemory> {
        match self.call(|handle| unsafe { bucket_reserve(handle, additional) }) {
            OK => Ok(()),
            _ => Err(NoMemory),
        }
    }

    pub fn shrink_to_fit(&mut self) -> Result<(), NoMemory> {
        // Like the library's own minimum, which is reset even if the call fails.
        self.kind.capacity = 0;
        match unsafe { bucket_shrink(&mut self.held.handle) } {
            OK | CLOSED => Ok(()),
            _ => Err(NoMemory),
        }
    }
}

impl<K: Key, V> Table<Caches, K, V> {
    /// Returns the address of a key's node, which is touched.
    #[inline]
    pub fn touch<Q: ?Sized + KeyForm>(&mut self, key: &Q) -> Option<u64> {
        let mut address = 0;
        (Caches::touch(&mut self.held.handle, key.form(), &mut address) == OK).then_some(address)
    }

    /// Puts a pair, and returns the one that left the cache: another one, or the key's own earlier one. Returns the
    /// pair itself if an allocation failed.
    #[inline]
    pub fn put(&mut self, key: K, value: V) -> Result<Option<(K, V)>, (K, V)> {
        let node = match Node::new(key, value) {
            Ok(node) => node,
            Err((key, value)) => {
                return match self.touch(&key) {
                    // SAFETY: the node is in the table.
                    Some(held) => Ok(Some((key, replace(unsafe { &mut (*at::<K, V>(held)).value }, value)))),
                    None => Err((key, value)),
                }
            }
        };
        let address = Node::into_address(node);
        let mut before = 0;
        // SAFETY: as in `place`; the caller owns a node that was evicted.
        let key = unsafe { (*at::<K, V>(address)).key.form() };
        match self.call(|handle| Caches::upsert(handle, key, address, &mut before)) {
            OK => {
                self.len += 1;
                Ok(None)
            }
            EVICTED | PRESENT => Ok(Some(unsafe { take_back(before) }.into_pair())),
            _ => Err(unsafe { take_back(address) }.into_pair()),
        }
    }

    /// Puts a pair whose key is absent, and returns its node's address and the evicted pair.
    #[inline]
    pub fn insert(&mut self, key: K, value: V) -> Result<Put<K, V>, NotInserted<K, V>> {
        let address = match Node::new(key, value) {
            Ok(node) => Node::into_address(node),
            Err(pair) => {
                let reason = if self.contains(&pair.0) { Reason::Present } else { Reason::NoMemory };
                return Err(NotInserted::new(pair, reason));
            }
        };
        let mut before = 0;
        // SAFETY: as in `put`.
        let key = unsafe { (*at::<K, V>(address)).key.form() };
        let reason = match self.call(|handle| Caches::put(handle, key, address, &mut before)) {
            OK => {
                self.len += 1;
                return Ok((address, None));
            }
            EVICTED => return Ok((address, Some(unsafe { take_back(before) }.into_pair()))),
            PRESENT => Reason::Present,
            _ => Reason::NoMemory,
        };
        Err(NotInserted::new(unsafe { take_back(address) }.into_pair(), reason))
    }
}

/// A list of all nodes of a table, to be tested one by one, and removed while others are left.
pub(crate) struct Sieve<'a, K, V> {
    table: &'a mut Table<Maps, K, V>,
    list: List<K, V>,
    is_listed: bool,
}

impl<'a, K: Key, V> Sieve<'a, K, V> {
    pub fn new(table: &'a mut Table<Maps, K, V>) -> Sieve<'a, K, V> {
        Sieve { table, list: List::EMPTY, is_listed: false }
    }

    /// Removes the next node for which `takes` returns `true`. The first call links all nodes.
    pub fn next(&mut self, mut takes: impl FnMut(&K, &mut V) -> bool) -> Option<Box<Node<K, V>>> {
        if !self.is_listed {
            self.is_listed = true;
            let mut walk = Walk::new();
            while let Some(address) = walk.next(&self.table.held.handle) {
                // SAFETY: the node is in the table, which only the sieve borrows, and stays until it is popped.
                unsafe { self.list.push(address) };
            }
        }
        while let Some(address) = self.list.pop() {
            let node = at::<K, V>(address);
            // SAFETY: the node is in the table, and no part of it is borrowed.
            if unsafe { takes(&(*node).key, &mut (*node).value) } {
                return Some(unsafe { self.table.unlink(address) });
            }
        }
        None
    }

    pub fn len(&self) -> usize {
        self.table.len
    }
}
