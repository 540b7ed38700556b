//! Maps and sets. Std aborts the process where memory is refused, so these never answer so.

use crate::alloc::{AllocError, Global};
use std::hash::Hash;

/// A map in the order of its keys.
pub struct BTreeMap<K, V>(std::collections::BTreeMap<K, V>);

impl<K: Ord, V> BTreeMap<K, V> {
    pub fn new(_: Global) -> Self {
        BTreeMap(std::collections::BTreeMap::new())
    }

    pub fn insert(&mut self, key: K, value: V) -> Result<Option<V>, AllocError> {
        Ok(self.0.insert(key, value))
    }

    pub fn remove(&mut self, key: &K) -> Option<V> {
        self.0.remove(key)
    }

    pub fn get(&self, key: &K) -> Option<&V> {
        self.0.get(key)
    }
}

/// A set in its order.
pub struct BTreeSet<K>(std::collections::BTreeSet<K>);

impl<K: Ord> BTreeSet<K> {
    pub fn new(_: Global) -> Self {
        BTreeSet(std::collections::BTreeSet::new())
    }

    pub fn insert(&mut self, key: K) -> Result<bool, AllocError> {
        Ok(self.0.insert(key))
    }

    pub fn contains(&self, key: &K) -> bool {
        self.0.contains(key)
    }

    pub fn pop_last(&mut self) -> Option<K> {
        self.0.pop_last()
    }
}

/// A map by hashes.
pub struct HashMap<K, V>(std::collections::HashMap<K, V>);

impl<K: Eq + Hash, V> HashMap<K, V> {
    pub fn new(_: Global) -> Self {
        HashMap(std::collections::HashMap::new())
    }

    pub fn insert(&mut self, key: K, value: V) -> Result<Option<V>, AllocError> {
        Ok(self.0.insert(key, value))
    }

    pub fn get(&self, key: &K) -> Option<&V> {
        self.0.get(key)
    }
}
