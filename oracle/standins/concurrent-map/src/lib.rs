//! Stand-in for concurrent_map: an ordered map whose clones share, with the calls that the original makes.
//! insert gives the replaced value; range and iter ascend in the key and take one step at a time, without a lock
//! between steps; a removed value is dropped at once (the crate itself may drop it a little later).
use std::cmp::Reverse;
use std::collections::BTreeMap;
use std::ops::{Bound, RangeBounds};
use std::sync::{Arc, RwLock};

pub trait Minimum: Ord {
    const MIN: Self;
}
pub trait Maximum: Ord {
    const MAX: Self;
}
impl<T: Maximum> Minimum for Reverse<T> {
    const MIN: Self = Reverse(T::MAX);
}

pub struct ConcurrentMap<K, V, const FANOUT: usize = 64, const GRANULARITY: usize = 128> {
    inner: Arc<RwLock<BTreeMap<K, V>>>,
}

impl<K, V, const F: usize, const G: usize> Clone for ConcurrentMap<K, V, F, G> {
    fn clone(&self) -> Self {
        ConcurrentMap { inner: self.inner.clone() }
    }
}

impl<K: Ord, V, const F: usize, const G: usize> Default for ConcurrentMap<K, V, F, G> {
    fn default() -> Self {
        ConcurrentMap { inner: Arc::new(RwLock::new(BTreeMap::new())) }
    }
}

impl<K: Minimum + Clone, V: Clone, const F: usize, const G: usize> ConcurrentMap<K, V, F, G> {
    pub fn insert(&self, key: K, value: V) -> Option<V> {
        self.inner.write().unwrap().insert(key, value)
    }
    pub fn get(&self, key: &K) -> Option<V> {
        self.inner.read().unwrap().get(key).cloned()
    }
    pub fn remove(&self, key: &K) -> Option<V> {
        self.inner.write().unwrap().remove(key)
    }
    pub fn len(&self) -> usize {
        self.inner.read().unwrap().len()
    }
    pub fn range<R: RangeBounds<K>>(&self, range: R) -> Iter<K, V, F, G> {
        Iter { map: self.clone(), low: range.start_bound().cloned(), high: range.end_bound().cloned() }
    }
    pub fn iter(&self) -> Iter<K, V, F, G> {
        self.range(..)
    }
}

pub struct Iter<K, V, const F: usize, const G: usize> {
    map: ConcurrentMap<K, V, F, G>,
    low: Bound<K>,
    high: Bound<K>,
}

impl<K: Minimum + Clone, V: Clone, const F: usize, const G: usize> Iterator for Iter<K, V, F, G> {
    type Item = (K, V);
    fn next(&mut self) -> Option<(K, V)> {
        let step = {
            let map = self.map.inner.read().unwrap();
            let (key, value) = map.range((self.low.clone(), self.high.clone())).next()?;
            (key.clone(), value.clone())
        };
        self.low = Bound::Excluded(step.0.clone());
        Some(step)
    }
}

impl<'a, K: Minimum + Clone, V: Clone, const F: usize, const G: usize> IntoIterator for &'a ConcurrentMap<K, V, F, G> {
    type Item = (K, V);
    type IntoIter = Iter<K, V, F, G>;
    fn into_iter(self) -> Iter<K, V, F, G> {
        self.iter()
    }
}
