//! The nodes that store pairs, and reading all of them.

use crate::ffi::{Handle, Pair, Place};
use std::alloc::{alloc, Layout};
use std::marker::PhantomData;
use std::mem::replace;
use std::panic::{catch_unwind, resume_unwind, AssertUnwindSafe};
use std::ptr::with_exposed_provenance_mut;
use std::thread::panicking;

/// A pair on the heap. Its address is the value that the table stores under the key.
pub(crate) struct Node<K, V> {
    pub key: K,
    pub value: V,
    /// The address of the next node of a [`List`]; it is meaningless outside of one.
    link: u64,
}

impl<K, V> Node<K, V> {
    /// Allocates a node for a pair; returns the pair if the allocation fails.
    #[inline]
    pub fn new(key: K, value: V) -> Result<Box<Node<K, V>>, (K, V)> {
        // SAFETY: a node isn't of size 0, since it has a link.
        let node = unsafe { alloc(Layout::new::<Node<K, V>>()) }.cast::<Node<K, V>>();
        if node.is_null() {
            return Err((key, value));
        }
        // SAFETY: the block is new, and has a node's layout, from the allocator that a box uses.
        unsafe {
            node.write(Node { key, value, link: 0 });
            Ok(Box::from_raw(node))
        }
    }

    /// Releases a node to a table, as its address.
    #[inline(always)]
    pub fn into_address(node: Box<Node<K, V>>) -> u64 {
        Box::into_raw(node).expose_provenance() as u64
    }

    #[inline(always)]
    pub fn into_pair(self) -> (K, V) {
        (self.key, self.value)
    }
}

/// The node at an address that `into_address` returned.
#[inline(always)]
pub(crate) fn at<K, V>(address: u64) -> *mut Node<K, V> {
    with_exposed_provenance_mut(address as usize)
}

/// Takes a node back.
///
/// # Safety
///
/// `into_address` returned the address, for a node of this type, and it isn't used again.
#[inline(always)]
pub(crate) unsafe fn take_back<K, V>(address: u64) -> Box<Node<K, V>> {
    unsafe { Box::from_raw(at(address)) }
}

/// Frees a node, under the conditions of `take_back`.
pub(crate) unsafe fn free<K, V>(address: u64) {
    drop(unsafe { take_back::<K, V>(address) })
}

/// A list of nodes that are in a table, linked by the nodes themselves. It allocates nothing.
pub(crate) struct List<K, V> {
    first: u64,
    pairs: PhantomData<(K, V)>,
}

impl<K, V> List<K, V> {
    pub const EMPTY: List<K, V> = List { first: 0, pairs: PhantomData };

    /// # Safety
    ///
    /// The address is that of a node of this type, which isn't borrowed, and stays until it is popped.
    pub unsafe fn push(&mut self, address: u64) {
        unsafe { (*at::<K, V>(address)).link = self.first };
        self.first = address;
    }

    pub fn pop(&mut self) -> Option<u64> {
        let address = self.first;
        if address == 0 {
            return None;
        }
        // SAFETY: the caller of `push` ensures that the node exists.
        self.first = unsafe { (*at::<K, V>(address)).link };
        Some(address)
    }
}

/// How many pairs are read at a time; their values are the addresses.
const PIECE: usize = 64;

/// Reads the addresses of all nodes of a table that nobody changes. It allocates nothing. All steps together are
/// O(slots).
#[derive(Clone)]
pub(crate) struct Walk {
    place: Place,
    piece: [Pair; PIECE],
    /// The range of the piece that holds the remaining addresses.
    next: usize,
    end: usize,
}

impl Walk {
    pub const fn new() -> Walk {
        Walk { place: Place::START, piece: [Pair::NONE; PIECE], next: 0, end: 0 }
    }

    /// Returns the next address. The handle must be the same at each call, and the table unchanged.
    #[inline]
    pub fn next(&mut self, handle: &Handle) -> Option<u64> {
        if self.next == self.end {
            self.read(handle);
        }
        let address = self.piece[..self.end].get(self.next)?.value;
        self.next += 1;
        Some(address)
    }

    fn read(&mut self, handle: &Handle) {
        self.next = 0;
        self.end = self.place.read(handle, &mut self.piece);
    }
}

/// Calls `act` for each item that `next` returns, even after one that panics. Then the first panic continues, unless
/// another one is in progress, when a second would abort the process.
pub(crate) fn for_all<T>(mut next: impl FnMut() -> Option<T>, mut act: impl FnMut(T)) {
    let mut first = None;
    loop {
        let rest = || {
            while let Some(item) = next() {
                act(item);
            }
        };
        match catch_unwind(AssertUnwindSafe(rest)) {
            Ok(()) => break,
            Err(panic) => first = first.or(Some(panic)),
        }
    }
    match first {
        Some(panic) if !panicking() => resume_unwind(panic),
        _ => {}
    }
}

/// A handle and the nodes in its table, which are freed with it. It doesn't name their type, so that a collection may
/// outlive what its values borrow, as std's may.
pub(crate) struct Held {
    pub handle: Handle,
    free: unsafe fn(u64),
}

impl Held {
    /// Returns a closed handle for nodes of this type.
    pub const fn closed<K, V>() -> Held {
        Held { handle: Handle::CLOSED, free: free::<K, V> }
    }

    /// Takes the handle and all nodes out, and leaves a closed handle.
    pub fn take(&mut self) -> Rest {
        Rest { handle: replace(&mut self.handle, Handle::CLOSED), walk: Walk::new(), free: self.free }
    }
}

impl Drop for Held {
    fn drop(&mut self) {
        drop(self.take())
    }
}

/// A table that is no longer looked up in, and its remaining nodes. They are freed with it.
pub(crate) struct Rest {
    pub handle: Handle,
    pub walk: Walk,
    free: unsafe fn(u64),
}

impl Rest {
    /// Returns the address of the next node, which the caller then owns.
    #[inline]
    pub fn next(&mut self) -> Option<u64> {
        self.walk.next(&self.handle)
    }
}

impl Drop for Rest {
    fn drop(&mut self) {
        let free = self.free;
        // SAFETY: the node is of the type that `Held::closed` had, and no address comes twice.
        for_all(|| self.next(), |address| unsafe { free(address) });
    }
}
