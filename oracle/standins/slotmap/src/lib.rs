//! Stand-in: as much of slotmap as graph.rs needs to compile and pipes need for their keys. Nothing is ever removed
//! from a `SlotMap`.
use std::collections::BTreeMap;
use std::marker::PhantomData;
use std::ops::{Index, IndexMut};

/// A key is a place in a `SlotMap`, or null.
pub trait Key: Copy + Ord {
    /// The key of a place.
    fn from_index(index: usize) -> Self;

    /// The place of a key.
    fn index(self) -> usize;

    /// The key of no place.
    fn null() -> Self {
        Self::from_index(usize::MAX)
    }

    /// Whether this is the key of no place.
    fn is_null(&self) -> bool {
        self.index() == usize::MAX
    }
}

/// Declares key types, as slotmap's macro of this name does.
#[macro_export]
macro_rules! new_key_type {
    ($($vis:vis struct $name:ident;)*) => {$(
        #[derive(Copy, Clone, PartialEq, Eq, PartialOrd, Ord, Hash, Debug)]
        $vis struct $name(usize);
        impl $crate::Key for $name {
            /// The key of a place.
            fn from_index(index: usize) -> Self { Self(index) }
            /// The place of a key.
            fn index(self) -> usize { self.0 }
        }
    )*};
}

/// Values by key, in the order in which they came.
pub struct SlotMap<K, V>(Vec<V>, PhantomData<K>);

impl<K, V> Default for SlotMap<K, V> {
    /// No values.
    fn default() -> Self {
        Self(Vec::new(), PhantomData)
    }
}

impl<K: Key, V> SlotMap<K, V> {
    /// No values, with room for some.
    pub fn with_capacity_and_key(capacity: usize) -> Self {
        Self(Vec::with_capacity(capacity), PhantomData)
    }

    /// Adds a value and gives its key.
    pub fn insert(&mut self, value: V) -> K {
        self.0.push(value);
        K::from_index(self.0.len() - 1)
    }

    /// All keys in use.
    pub fn keys(&self) -> impl Iterator<Item = K> {
        (0..self.0.len()).map(K::from_index)
    }
}

impl<K: Key, V> Index<K> for SlotMap<K, V> {
    type Output = V;

    /// The value of a key.
    fn index(&self, key: K) -> &V {
        &self.0[key.index()]
    }
}

impl<K: Key, V> IndexMut<K> for SlotMap<K, V> {
    /// The value of a key, to change.
    fn index_mut(&mut self, key: K) -> &mut V {
        &mut self.0[key.index()]
    }
}

/// Further values by the keys of a `SlotMap`.
pub struct SecondaryMap<K, V>(BTreeMap<K, V>);

impl<K: Key, V> SecondaryMap<K, V> {
    /// Sets the value of a key and gives the one that stood there.
    pub fn insert(&mut self, key: K, value: V) -> Option<V> {
        self.0.insert(key, value)
    }

    /// Takes the value of a key out.
    pub fn remove(&mut self, key: K) -> Option<V> {
        self.0.remove(&key)
    }
}

impl<K: Key, V> FromIterator<(K, V)> for SecondaryMap<K, V> {
    /// A map of these pairs.
    fn from_iter<I: IntoIterator<Item = (K, V)>>(iter: I) -> Self {
        Self(iter.into_iter().collect())
    }
}
