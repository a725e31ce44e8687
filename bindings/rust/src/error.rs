//! What a call returns that didn't insert a pair.

use std::collections::TryReserveError;
use std::error::Error;
use std::{fmt, io};

/// An allocation failed; the pairs are as they were.
///
/// It converts to an [`io::Error`] of the kind `OutOfMemory`, and a [`TryReserveError`] converts to it, so that `?`
/// passes either on.
///
/// ```
/// use bucket::{Map, NoMemory};
///
/// fn count(words: &[&str]) -> std::io::Result<Map<String, u32>> {
///     let mut counts = Map::new();
///     for word in words {
///         *counts.entry(word.to_string()).or_insert(0)? += 1;
///     }
///     Ok(counts)
/// }
/// assert_eq!(count(&["so", "be", "so"])?["so"], 2);
/// assert_eq!(NoMemory.to_string(), "allocation failed");
/// # Ok::<(), std::io::Error>(())
/// ```
#[derive(Debug, Clone, Copy, PartialEq, Eq, Hash)]
pub struct NoMemory;

impl fmt::Display for NoMemory {
    fn fmt(&self, f: &mut fmt::Formatter<'_>) -> fmt::Result {
        f.write_str("allocation failed")
    }
}

impl Error for NoMemory {}

impl From<NoMemory> for io::Error {
    fn from(_: NoMemory) -> io::Error {
        io::ErrorKind::OutOfMemory.into()
    }
}

impl From<TryReserveError> for NoMemory {
    fn from(_: TryReserveError) -> NoMemory {
        NoMemory
    }
}

/// Why a pair wasn't inserted.
#[derive(Debug, Clone, Copy, PartialEq, Eq, Hash)]
pub enum Reason {
    /// The key is present.
    Present,
    /// An allocation failed.
    NoMemory,
}

impl fmt::Display for Reason {
    fn fmt(&self, f: &mut fmt::Formatter<'_>) -> fmt::Result {
        f.write_str(match self {
            Reason::Present => "the key is present",
            Reason::NoMemory => "allocation failed",
        })
    }
}

/// A pair that wasn't inserted, and why; the pairs of the collection are as they were.
///
/// ```
/// use bucket::{Map, Reason};
///
/// let mut owners = Map::from([(1, "Ann".to_string())]);
/// let error = owners.try_insert(1, "Bob".to_string()).unwrap_err();
/// assert_eq!(error.reason, Reason::Present);
/// assert_eq!(error.into_pair(), (1, "Bob".to_string()));
/// ```
#[derive(Clone, PartialEq, Eq)]
pub struct NotInserted<K, V> {
    /// The key that was to be inserted.
    pub key: K,
    /// Its value.
    pub value: V,
    /// Why the pair wasn't inserted.
    pub reason: Reason,
}

impl<K, V> NotInserted<K, V> {
    pub(crate) fn new((key, value): (K, V), reason: Reason) -> NotInserted<K, V> {
        NotInserted { key, value, reason }
    }

    pub(crate) fn for_memory(pair: (K, V)) -> NotInserted<K, V> {
        NotInserted::new(pair, Reason::NoMemory)
    }

    /// Returns the pair that wasn't inserted.
    ///
    /// ```
    /// use bucket::Map;
    ///
    /// let mut map = Map::from([(1, 2)]);
    /// assert_eq!(map.try_insert(1, 3).unwrap_err().into_pair(), (1, 3));
    /// ```
    pub fn into_pair(self) -> (K, V) {
        (self.key, self.value)
    }
}

/// Prints only the reason, for any key and value.
impl<K, V> fmt::Debug for NotInserted<K, V> {
    fn fmt(&self, f: &mut fmt::Formatter<'_>) -> fmt::Result {
        f.debug_struct("NotInserted").field("reason", &self.reason).finish_non_exhaustive()
    }
}

impl<K, V> fmt::Display for NotInserted<K, V> {
    fn fmt(&self, f: &mut fmt::Formatter<'_>) -> fmt::Result {
        self.reason.fmt(f)
    }
}

impl<K, V> Error for NotInserted<K, V> {}

impl<K, V> From<NotInserted<K, V>> for io::Error {
    fn from(error: NotInserted<K, V>) -> io::Error {
        match error.reason {
            Reason::Present => io::ErrorKind::AlreadyExists.into(),
            Reason::NoMemory => io::ErrorKind::OutOfMemory.into(),
        }
    }
}
