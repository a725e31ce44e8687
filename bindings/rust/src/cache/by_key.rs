//! Calls by one key.

use super::Cache;
use crate::node::at;
use crate::{Key, KeyForm, NoMemory, NotInserted};
use std::borrow::Borrow;

impl<K: Key, V> Cache<K, V> {
    /// Inserts a pair, or replaces the value of a key that is present, and touches the pair. Returns the pair that
    /// left the cache for it, if any: the evicted one, or, if the key was present, the key with its earlier value,
    /// like `push` of the crate `lru`. So whatever leaves the cache is returned; if its key equals the one that was
    /// put, it is the earlier value. O(1).
    ///
    /// # Errors
    ///
    /// An allocation failed: the cache is as it was, and the pair is dropped. It can't fail if the key is present.
    /// [`try_put`](Cache::try_put) returns the pair.
    ///
    /// ```
    /// let mut cache = bucket::Cache::new(64)?;
    /// assert_eq!(cache.put("Ann", 30)?, None);
    /// assert_eq!(cache.put("Ann", 31)?, Some(("Ann", 30)));
    ///
    /// let mut numbers = bucket::Cache::new(64)?;
    /// let evicted = (0..1000).filter_map(|number| numbers.put(number, ()).unwrap()).count();
    /// assert_eq!(evicted + numbers.len(), 1000);
    /// # Ok::<(), bucket::NoMemory>(())
    /// ```
    #[inline]
    pub fn put(&mut self, key: K, value: V) -> Result<Option<(K, V)>, NoMemory> {
        self.table.put(key, value).map_err(|_| NoMemory)
    }

    /// The same as [`put`](Cache::put), but the pair isn't lost if an allocation fails. O(1).
    ///
    /// # Errors
    ///
    /// An allocation failed: the cache is as it was, and the error has the pair.
    ///
    /// ```
    /// let mut cache = bucket::Cache::new(64)?;
    /// if let Err(error) = cache.try_put(1, "one".to_string()) {
    ///     println!("{error}: {} is still here", error.value);
    /// }
    /// assert!(cache.contains(&1));
    /// # Ok::<(), bucket::NoMemory>(())
    /// ```
    #[inline]
    pub fn try_put(&mut self, key: K, value: V) -> Result<Option<(K, V)>, NotInserted<K, V>> {
        self.table.put(key, value).map_err(NotInserted::for_memory)
    }

    /// Inserts a pair whose key is absent, and returns the one that was evicted for it. O(1).
    ///
    /// # Errors
    ///
    /// The key is present, and isn't touched, or an allocation failed. The cache is as it was, and the error has the
    /// pair.
    ///
    /// ```
    /// use bucket::{Cache, Reason};
    ///
    /// let mut cache = Cache::new(64)?;
    /// assert_eq!(cache.try_insert("Ann", 30).unwrap(), None);
    /// assert_eq!(cache.try_insert("Ann", 31).unwrap_err().reason, Reason::Present);
    /// # Ok::<(), bucket::NoMemory>(())
    /// ```
    #[inline]
    pub fn try_insert(&mut self, key: K, value: V) -> Result<Option<(K, V)>, NotInserted<K, V>> {
        self.table.insert(key, value).map(|(_, evicted)| evicted)
    }

    /// Returns the value of a key, and touches the pair; if the key is absent, inserts the value that `make` returns.
    /// A pair that is evicted for it is dropped. O(1).
    ///
    /// # Errors
    ///
    /// An allocation failed: the cache is as it was, and what was made is dropped.
    ///
    /// ```
    /// let mut squares = bucket::Cache::new(1000)?;
    /// for number in [3, 4, 3] {
    ///     assert_eq!(*squares.get_or_insert_with(number, || number * number)?, number * number);
    /// }
    /// assert_eq!(squares.len(), 2);
    /// # Ok::<(), bucket::NoMemory>(())
    /// ```
    pub fn get_or_insert_with(&mut self, key: K, make: impl FnOnce() -> V) -> Result<&mut V, NoMemory> {
        let address = match self.table.touch(&key) {
            Some(address) => address,
            None => {
                let value = make();
                // The new pair is in the cache before the evicted one is dropped.
                self.table.insert(key, value).map_err(|_| NoMemory)?.0
            }
        };
        // SAFETY: the node is in the table, which is borrowed for as long.
        Ok(unsafe { &mut (*at::<K, V>(address)).value })
    }

    /// Returns the value of a key, and touches the pair. O(1).
    ///
    /// ```
    /// let mut cache = bucket::Cache::new(64)?;
    /// cache.put("Ann".to_string(), 30)?;
    /// assert_eq!(cache.get("Ann"), Some(&30));
    /// assert_eq!(cache.get("Bob"), None);
    /// # Ok::<(), bucket::NoMemory>(())
    /// ```
    #[inline]
    pub fn get<Q>(&mut self, key: &Q) -> Option<&V>
    where
        K: Borrow<Q>,
        Q: ?Sized + KeyForm,
    {
        self.get_mut(key).map(|value| &*value)
    }

    /// Returns a mutable reference to the value of a key, and touches the pair. O(1).
    ///
    /// ```
    /// let mut cache = bucket::Cache::new(64)?;
    /// cache.put("Ann", 30)?;
    /// *cache.get_mut("Ann").unwrap() += 1;
    /// assert_eq!(cache.get("Ann"), Some(&31));
    /// # Ok::<(), bucket::NoMemory>(())
    /// ```
    #[inline]
    pub fn get_mut<Q>(&mut self, key: &Q) -> Option<&mut V>
    where
        K: Borrow<Q>,
        Q: ?Sized + KeyForm,
    {
        // SAFETY: the node is in the table, which is borrowed for as long.
        self.table.touch(key).map(|address| unsafe { &mut (*at::<K, V>(address)).value })
    }

    /// Returns the value of a key, without touching the pair. O(1).
    ///
    /// ```
    /// let mut cache = bucket::Cache::new(64)?;
    /// cache.put("Ann", 30)?;
    /// assert_eq!(cache.peek("Ann"), Some(&30));
    /// # Ok::<(), bucket::NoMemory>(())
    /// ```
    #[inline]
    pub fn peek<Q>(&self, key: &Q) -> Option<&V>
    where
        K: Borrow<Q>,
        Q: ?Sized + KeyForm,
    {
        self.table.get(key).map(|node| &node.value)
    }

    /// Returns a mutable reference to the value of a key, without touching the pair. O(1).
    ///
    /// ```
    /// let mut cache = bucket::Cache::new(64)?;
    /// cache.put("Ann", 30)?;
    /// *cache.peek_mut("Ann").unwrap() += 1;
    /// assert_eq!(cache.peek("Ann"), Some(&31));
    /// # Ok::<(), bucket::NoMemory>(())
    /// ```
    #[inline]
    pub fn peek_mut<Q>(&mut self, key: &Q) -> Option<&mut V>
    where
        K: Borrow<Q>,
        Q: ?Sized + KeyForm,
    {
        self.table.get_mut(key).map(|node| &mut node.value)
    }

    /// Returns the pair of a key, and touches it: the key as it was put, and its value. O(1).
    ///
    /// ```
    /// let mut cache = bucket::Cache::new(64)?;
    /// cache.put("Ann".to_string(), 30)?;
    /// assert_eq!(cache.get_key_value("Ann"), Some((&"Ann".to_string(), &30)));
    /// # Ok::<(), bucket::NoMemory>(())
    /// ```
    pub fn get_key_value<Q>(&mut self, key: &Q) -> Option<(&K, &V)>
    where
        K: Borrow<Q>,
        Q: ?Sized + KeyForm,
    {
        // SAFETY: the node is in the table, which is borrowed for as long.
        let node = self.table.touch(key).map(|address| unsafe { &*at::<K, V>(address) })?;
        Some((&node.key, &node.value))
    }

    /// Returns `true` if a key is present; no pair is touched. O(1).
    ///
    /// ```
    /// let mut cache = bucket::Cache::new(64)?;
    /// cache.put(1, "one")?;
    /// assert!(cache.contains(&1) && !cache.contains(&2));
    /// # Ok::<(), bucket::NoMemory>(())
    /// ```
    #[inline]
    pub fn contains<Q>(&self, key: &Q) -> bool
    where
        K: Borrow<Q>,
        Q: ?Sized + KeyForm,
    {
        self.table.contains(key)
    }

    /// The same as [`contains`](Cache::contains), under the name that a map uses.
    ///
    /// ```
    /// assert!(!bucket::Cache::<u64, u64>::new(64)?.contains_key(&1));
    /// # Ok::<(), bucket::NoMemory>(())
    /// ```
    #[inline]
    pub fn contains_key<Q>(&self, key: &Q) -> bool
    where
        K: Borrow<Q>,
        Q: ?Sized + KeyForm,
    {
        self.contains(key)
    }

    /// Removes a key, and returns its value. Allocates nothing. O(1).
    ///
    /// ```
    /// let mut cache = bucket::Cache::new(64)?;
    /// cache.put(1, "one")?;
    /// assert_eq!((cache.remove(&1), cache.remove(&1)), (Some("one"), None));
    /// # Ok::<(), bucket::NoMemory>(())
    /// ```
    #[inline]
    pub fn remove<Q>(&mut self, key: &Q) -> Option<V>
    where
        K: Borrow<Q>,
        Q: ?Sized + KeyForm,
    {
        self.remove_entry(key).map(|(_, value)| value)
    }

    /// The same as [`remove`](Cache::remove), under the name that the crate `lru` uses.
    ///
    /// ```
    /// let mut cache = bucket::Cache::new(64)?;
    /// cache.put(1, "one")?;
    /// assert_eq!(cache.pop(&1), Some("one"));
    /// # Ok::<(), bucket::NoMemory>(())
    /// ```
    #[inline]
    pub fn pop<Q>(&mut self, key: &Q) -> Option<V>
    where
        K: Borrow<Q>,
        Q: ?Sized + KeyForm,
    {
        self.remove(key)
    }

    /// Removes a key, and returns it with its value. Allocates nothing. O(1).
    ///
    /// ```
    /// let mut cache = bucket::Cache::new(64)?;
    /// cache.put("Ann".to_string(), 30)?;
    /// assert_eq!(cache.remove_entry("Ann"), Some(("Ann".to_string(), 30)));
    /// # Ok::<(), bucket::NoMemory>(())
    /// ```
    #[inline]
    pub fn remove_entry<Q>(&mut self, key: &Q) -> Option<(K, V)>
    where
        K: Borrow<Q>,
        Q: ?Sized + KeyForm,
    {
        self.table.remove(key).map(|node| node.into_pair())
    }
}
