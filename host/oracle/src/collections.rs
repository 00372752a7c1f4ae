//! Collections. The hashed ones are the standard library's; what keeps the order of insertion is
//! ours, the plainest thing that can do it: a vector that is searched from the front.
//!
//! `indexmap` was not at hand. Three of its documented properties are relied on: iteration goes in
//! order of insertion, inserting under a key that is there replaces the value and keeps the
//! position, and a map can be asked by anything its key can be borrowed as.

use std::borrow::Borrow;

pub type HashMap<K, V> = std::collections::HashMap<K, V>;
pub type HashSet<T> = std::collections::HashSet<T>;

#[derive(Debug, Clone)]
pub struct IndexMap<K, V> {
    entries: Vec<(K, V)>,
}

impl<K, V> Default for IndexMap<K, V> {
    fn default() -> Self {
        IndexMap { entries: Vec::new() }
    }
}

impl<K: Eq, V> IndexMap<K, V> {
    pub fn with_capacity(capacity: usize) -> Self {
        IndexMap { entries: Vec::with_capacity(capacity) }
    }

    pub fn len(&self) -> usize {
        self.entries.len()
    }

    pub fn is_empty(&self) -> bool {
        self.entries.is_empty()
    }

    pub fn keys(&self) -> impl Iterator<Item = &K> {
        self.entries.iter().map(|(key, _)| key)
    }

    pub fn iter(&self) -> Entries<'_, K, V> {
        self.into_iter()
    }

    fn position<Q: Eq + ?Sized>(&self, key: &Q) -> Option<usize>
    where
        K: Borrow<Q>,
    {
        self.entries.iter().position(|(at, _)| at.borrow() == key)
    }

    pub fn get<Q: Eq + ?Sized>(&self, key: &Q) -> Option<&V>
    where
        K: Borrow<Q>,
    {
        self.get_key_value(key).map(|(_, value)| value)
    }

    pub fn get_key_value<Q: Eq + ?Sized>(&self, key: &Q) -> Option<(&K, &V)>
    where
        K: Borrow<Q>,
    {
        self.position(key).map(|at| (&self.entries[at].0, &self.entries[at].1))
    }

    pub fn get_mut<Q: Eq + ?Sized>(&mut self, key: &Q) -> Option<&mut V>
    where
        K: Borrow<Q>,
    {
        self.position(key).map(|at| &mut self.entries[at].1)
    }

    pub fn contains_key<Q: Eq + ?Sized>(&self, key: &Q) -> bool
    where
        K: Borrow<Q>,
    {
        self.position(key).is_some()
    }

    pub fn insert(&mut self, key: K, value: V) -> Option<V> {
        match self.position(&key) {
            Some(at) => Some(std::mem::replace(&mut self.entries[at].1, value)),
            None => {
                self.entries.push((key, value));
                None
            }
        }
    }

    pub fn entry(&mut self, key: K) -> Entry<'_, K, V> {
        Entry { map: self, key }
    }
}

/// The place of a key, there already or not.
pub struct Entry<'m, K, V> {
    map: &'m mut IndexMap<K, V>,
    key: K,
}

impl<'m, K: Eq, V: Default> Entry<'m, K, V> {
    pub fn or_default(self) -> &'m mut V {
        let at = match self.map.position(&self.key) {
            Some(at) => at,
            None => {
                self.map.entries.push((self.key, V::default()));
                self.map.entries.len() - 1
            }
        };
        &mut self.map.entries[at].1
    }
}

/// The entries in order of insertion.
pub struct Entries<'m, K, V>(std::slice::Iter<'m, (K, V)>);

impl<'m, K, V> Iterator for Entries<'m, K, V> {
    type Item = (&'m K, &'m V);

    fn next(&mut self) -> Option<Self::Item> {
        self.0.next().map(|(key, value)| (key, value))
    }
}

impl<'m, K, V> IntoIterator for &'m IndexMap<K, V> {
    type Item = (&'m K, &'m V);
    type IntoIter = Entries<'m, K, V>;

    fn into_iter(self) -> Entries<'m, K, V> {
        Entries(self.entries.iter())
    }
}

impl<K: Eq, V> FromIterator<(K, V)> for IndexMap<K, V> {
    fn from_iter<I: IntoIterator<Item = (K, V)>>(entries: I) -> Self {
        let mut map = IndexMap::default();
        for (key, value) in entries {
            map.insert(key, value);
        }
        map
    }
}

/// A set in order of insertion.
#[derive(Debug, Clone)]
pub struct IndexSet<T> {
    members: IndexMap<T, ()>,
}

impl<T: Eq> IndexSet<T> {
    pub fn contains<Q: Eq + ?Sized>(&self, member: &Q) -> bool
    where
        T: Borrow<Q>,
    {
        self.members.contains_key(member)
    }
}

impl<T: Eq> FromIterator<T> for IndexSet<T> {
    fn from_iter<I: IntoIterator<Item = T>>(members: I) -> Self {
        IndexSet { members: members.into_iter().map(|member| (member, ())).collect() }
    }
}
