//! What may be a key.

use crate::NoMemory;
use std::rc::Rc;
use std::sync::Arc;

/// What the table sees of a key.
pub(crate) mod sealed {
    use crate::NoMemory;

    /// A key as it is passed to the library.
    #[derive(Clone, Copy)]
    pub enum Form<'a> {
        Word(u64),
        Bytes(&'a [u8]),
    }

    /// Two values of one type are equal exactly if their forms are, and a key's form is that of what it is borrowed
    /// as.
    pub trait Formed {
        /// Whether each form consists of bytes; otherwise each is a word.
        const IS_TEXT: bool;

        fn form(&self) -> Form<'_>;
    }

    pub trait Stored: Formed + Sized {
        /// A copy that returns an error, instead of aborting, if an allocation fails.
        fn try_copy(&self) -> Result<Self, NoMemory>;
    }
}

use sealed::{Form, Formed, Stored};

/// A key of a [`Map`](crate::Map), a [`Set`](crate::Set) or a [`Cache`](crate::Cache).
///
/// They are the integers of up to 64 bits, `bool` and `char`; `String`, `Box<str>`, `Vec<u8>`, `Box<[u8]>` and
/// `[u8; N]`; and `&T`, `Rc<T>` and `Arc<T>` of these and of `str` and `[u8]`. No other type can be made a key:
/// the library compares keys itself, as words or as bytes.
///
/// ```
/// use bucket::{Key, Map, NoMemory};
///
/// fn index<K: Key + Clone>(keys: &[K]) -> Result<Map<K, usize>, NoMemory> {
///     Map::try_from_iter(keys.iter().cloned().enumerate().map(|(place, key)| (key, place)))
/// }
/// assert_eq!(index(&["a", "b"])?.get("b"), Some(&1));
/// assert_eq!(index(&[-7i8, 7])?.get(&-7), Some(&0));
/// # Ok::<(), NoMemory>(())
/// ```
pub trait Key: KeyForm + Stored {}

/// A type that a key is looked up by: the key's own type, or one that it can be borrowed as (`K: Borrow<Q>`), such as
/// `str` for a `String` and `[u8]` for a `Vec<u8>`.
///
/// ```
/// use bucket::Map;
///
/// let map = Map::from([(b"ab".to_vec(), 1)]);
/// assert_eq!(map.get(&b"ab"[..]), Some(&1));
/// assert_eq!(map.get(&b"ab".to_vec()), Some(&1));
/// ```
pub trait KeyForm: Formed {}

macro_rules! words {
    ($($word:ty),*) => { $(
        impl Formed for $word {
            const IS_TEXT: bool = false;

            #[inline(always)]
            fn form(&self) -> Form<'_> {
                Form::Word(*self as u64)
            }
        }
        impl Stored for $word {
            fn try_copy(&self) -> Result<Self, NoMemory> {
                Ok(*self)
            }
        }
        impl KeyForm for $word {}
        impl Key for $word {}
    )* };
}

// A signed integer is passed as two's complement.
words!(u8, u16, u32, u64, usize, i8, i16, i32, i64, isize, bool, char);

macro_rules! texts {
    ($($(const $len:ident: usize)? [$text:ty] $bytes:ident;)*) => { $(
        impl$(<const $len: usize>)? Formed for $text {
            const IS_TEXT: bool = true;

            #[inline(always)]
            fn form(&self) -> Form<'_> {
                Form::Bytes(self.$bytes())
            }
        }
        impl$(<const $len: usize>)? KeyForm for $text {}
    )* };
}

texts! {
    [str] as_bytes;
    [[u8]] as_ref;
    [String] as_bytes;
    [Box<str>] as_bytes;
    [Vec<u8>] as_slice;
    [Box<[u8]>] as_ref;
    const N: usize [[u8; N]] as_slice;
}

/// A copy of some bytes.
fn copied(bytes: &[u8]) -> Result<Vec<u8>, NoMemory> {
    let mut copy = Vec::new();
    copy.try_reserve_exact(bytes.len())?;
    copy.extend_from_slice(bytes);
    Ok(copy)
}

/// A copy of some text.
fn copied_text(text: &str) -> Result<String, NoMemory> {
    let mut copy = String::new();
    copy.try_reserve_exact(text.len())?;
    copy.push_str(text);
    Ok(copy)
}

impl Stored for String {
    fn try_copy(&self) -> Result<Self, NoMemory> {
        copied_text(self)
    }
}

impl Stored for Box<str> {
    fn try_copy(&self) -> Result<Self, NoMemory> {
        copied_text(self).map(String::into_boxed_str)
    }
}

impl Stored for Vec<u8> {
    fn try_copy(&self) -> Result<Self, NoMemory> {
        copied(self)
    }
}

impl Stored for Box<[u8]> {
    fn try_copy(&self) -> Result<Self, NoMemory> {
        copied(self).map(Vec::into_boxed_slice)
    }
}

impl<const N: usize> Stored for [u8; N] {
    fn try_copy(&self) -> Result<Self, NoMemory> {
        Ok(*self)
    }
}

impl Key for String {}
impl Key for Box<str> {}
impl Key for Vec<u8> {}
impl Key for Box<[u8]> {}
impl<const N: usize> Key for [u8; N] {}

macro_rules! pointers {
    ($($pointer:ty),*) => { $(
        impl<T: ?Sized + Formed> Formed for $pointer {
            const IS_TEXT: bool = T::IS_TEXT;

            #[inline(always)]
            fn form(&self) -> Form<'_> {
                (**self).form()
            }
        }
        impl<T: ?Sized + Formed> Stored for $pointer {
            fn try_copy(&self) -> Result<Self, NoMemory> {
                Ok(Self::clone(self))
            }
        }
        impl<T: ?Sized + KeyForm> KeyForm for $pointer {}
        impl<T: ?Sized + KeyForm> Key for $pointer {}
    )* };
}

pointers!(&T, Rc<T>, Arc<T>);
