//! Hash maps, sets and caches in the shape of std's, over a hash table that is proved to do what `bucket.h` says.
//!
//! ```
//! use bucket::Map;
//!
//! let mut ages = Map::new();
//! ages.insert("Ann".to_string(), 30)?; // Err(NoMemory), and nothing has changed
//! *ages.entry("Bob".to_string()).or_insert(26)? += 1;
//! assert_eq!(ages.get("Ann"), Some(&30));
//! for (name, age) in &ages {
//!     println!("{name} is {age}");
//! }
//! # Ok::<(), bucket::NoMemory>(())
//! ```
//!
//! [`Map<K, V>`](Map) and [`Set<K>`](Set) have the calls of std's `HashMap` and `HashSet`. [`Cache<K, V>`](Cache) is
//! bounded: a full bucket evicts its pair that was touched longest ago. A key is an integer of up to 64 bits, a
//! string or bytes ([`Key`]); a value is of any type. Each pair is stored in a heap block of its own, so references
//! stay valid while the table grows, and the pair itself isn't moved.
//!
//! # Memory
//!
//! A call that allocates and can report it returns a `Result`; after `Err(`[`NoMemory`]`)` nothing has changed. What
//! was to be inserted is dropped then, but `try_insert` returns it. std's traits can't report it: `collect`,
//! `extend`, `From`, `clone` and the operators of sets call [`handle_alloc_error`](std::alloc::handle_alloc_error),
//! as std's maps do; `try_from_iter`, `try_extend` and `try_clone` return a `Result`. No iterator and no removal
//! allocates.
//!
//! # What differs from std
//!
//! - `insert`, `reserve`, `shrink_to_fit`, `or_insert` and the like return a `Result`.
//! - A map's [`capacity`](Map::capacity) is its number of slots, and [`clear`](Map::clear) and [`drain`](Map::drain) free
//!   them. [`with_capacity`](Map::with_capacity) can't fail, since the first insertion allocates the slots.
//! - A [`Seed`] takes the place of a hasher; it is random by default, as in std.
//! - [`retain`](Map::retain) drops the removed pairs after it has called its closure for all.
//! - If dropping a value panics, the others are still dropped.
//!
//! # Threads
//!
//! A collection may be sent to another thread if its keys and values may, but two threads can't read it at once: it
//! isn't `Sync`, since the library takes one call at a time on a table, look-ups too. A `Mutex` shares it. Since
//! `Map::new` is `const`, this also works for a static one:
//!
//! ```
//! use bucket::Map;
//! use std::sync::Mutex;
//!
//! static AGES: Mutex<Map<String, u32>> = Mutex::new(Map::new());
//!
//! std::thread::scope(|scope| {
//!     for name in ["Ann", "Bob"] {
//!         scope.spawn(move || AGES.lock().unwrap().insert(name.to_string(), 30));
//!     }
//! });
//! assert_eq!(AGES.lock().unwrap().len(), 2);
//! ```
//!
//! ```compile_fail,E0277
//! fn shared<T: Sync>() {}
//! shared::<bucket::Map<u64, u64>>();
//! ```
//!
//! # Proved, and not
//!
//! It is proved that the table behaves as `bucket.h` says, also if allocations fail. A test compares the declarations
//! of its calls with the header. The `unsafe` code of this crate, which passes nodes to the table and takes them
//! back, is only tested: against std's maps, with each allocation failing in turn, with values that panic, and under
//! valgrind.
#![deny(missing_docs)]

mod error;
mod ffi;
mod iter;
mod key;
mod kind;
mod node;
mod seed;
mod table;

pub mod cache;
pub mod map;
pub mod set;

pub use cache::Cache;
pub use error::{NoMemory, NotInserted, Reason};
pub use key::{Key, KeyForm};
pub use map::{Entry, Map};
pub use seed::Seed;
pub use set::Set;

/// The program on the package's page.
#[cfg(doctest)]
#[doc = include_str!("../README.md")]
struct Readme;

/// Returns the version of the linked library: major, minor, patch.
///
/// ```
/// assert_eq!(bucket::library_version(), (0, 2, 0));
/// ```
pub fn library_version() -> (u32, u32, u32) {
    // SAFETY: the call takes no arguments.
    let version = unsafe { ffi::bucket_version() };
    (version >> 16, version >> 8 & 0xff, version & 0xff)
}
