//! Arenas: vectors indexed by a typed 32-bit number, and maps from such numbers.

use std::fmt;
use std::hash::{Hash, Hasher};
use std::marker::PhantomData;
use std::ops::{Index, IndexMut};

/// The place of a `T` in its arena.
pub struct Idx<T> {
    raw: u32,
    of: PhantomData<fn() -> T>,
}

impl<T> Idx<T> {
    pub fn from_raw(raw: u32) -> Self {
        let of = PhantomData;
        Idx { raw, of }
    }

    pub fn into_raw(self) -> u32 {
        self.raw
    }
}

// Derived implementations would ask the same of `T`.
impl<T> Clone for Idx<T> {
    fn clone(&self) -> Self {
        *self
    }
}

impl<T> Copy for Idx<T> {}

impl<T> PartialEq for Idx<T> {
    fn eq(&self, other: &Self) -> bool {
        self.raw == other.raw
    }
}

impl<T> Eq for Idx<T> {}

impl<T> Hash for Idx<T> {
    fn hash<H: Hasher>(&self, state: &mut H) {
        self.raw.hash(state);
    }
}

impl<T> fmt::Debug for Idx<T> {
    fn fmt(&self, f: &mut fmt::Formatter<'_>) -> fmt::Result {
        write!(f, "Idx({})", self.raw)
    }
}

#[derive(Debug, Clone, PartialEq, Eq)]
pub struct Arena<T> {
    data: Vec<T>,
}

impl<T> Default for Arena<T> {
    fn default() -> Self {
        Self::new()
    }
}

impl<T> Arena<T> {
    pub fn new() -> Self {
        Arena { data: Vec::new() }
    }

    pub fn len(&self) -> usize {
        self.data.len()
    }

    pub fn is_empty(&self) -> bool {
        self.data.is_empty()
    }

    pub fn alloc(&mut self, value: T) -> Idx<T> {
        self.data.push(value);
        Idx::from_raw(self.data.len() as u32 - 1)
    }

    pub fn iter(&self) -> impl ExactSizeIterator<Item = (Idx<T>, &T)> {
        let numbered = self.data.iter().enumerate();
        numbered.map(|(raw, value)| (Idx::from_raw(raw as u32), value))
    }
}

impl<T> FromIterator<T> for Arena<T> {
    fn from_iter<I: IntoIterator<Item = T>>(values: I) -> Self {
        let data = values.into_iter().collect();
        Arena { data }
    }
}

impl<T> Index<Idx<T>> for Arena<T> {
    type Output = T;
    fn index(&self, index: Idx<T>) -> &T {
        &self.data[index.raw as usize]
    }
}

impl<T> IndexMut<Idx<T>> for Arena<T> {
    fn index_mut(&mut self, index: Idx<T>) -> &mut T {
        &mut self.data[index.raw as usize]
    }
}

/// A map from places to values: a vector with holes.
#[derive(Debug, Clone, PartialEq, Eq)]
pub struct ArenaMap<K, V> {
    values: Vec<Option<V>>,
    keys: PhantomData<K>,
}

impl<K, V> Default for ArenaMap<K, V> {
    fn default() -> Self {
        Self::with_capacity(0)
    }
}

impl<K, V> ArenaMap<K, V> {
    pub fn with_capacity(capacity: usize) -> Self {
        ArenaMap {
            values: Vec::with_capacity(capacity),
            keys: PhantomData,
        }
    }
}

impl<T, V> ArenaMap<Idx<T>, V> {
    pub fn insert(&mut self, index: Idx<T>, value: V) -> Option<V> {
        let place = index.raw as usize;
        if place >= self.values.len() {
            self.values.resize_with(place + 1, || None);
        }
        self.values[place].replace(value)
    }

    pub fn get(&self, index: Idx<T>) -> Option<&V> {
        self.values.get(index.raw as usize)?.as_ref()
    }

    pub fn iter(&self) -> impl Iterator<Item = (Idx<T>, &V)> {
        let numbered = self.values.iter().enumerate();
        numbered.filter_map(|(raw, value)| Some((Idx::from_raw(raw as u32), value.as_ref()?)))
    }
}

impl<T, V> FromIterator<(Idx<T>, V)> for ArenaMap<Idx<T>, V> {
    fn from_iter<I: IntoIterator<Item = (Idx<T>, V)>>(entries: I) -> Self {
        let mut map = ArenaMap::default();
        for (index, value) in entries {
            map.insert(index, value);
        }
        map
    }
}

#[cfg(test)]
mod tests {
    use super::*;

    #[test]
    fn an_arena_numbers_from_0() {
        let mut arena = Arena::new();
        assert_eq!(arena.alloc('a').into_raw(), 0);
        let second = arena.alloc('b');
        assert_eq!((second.into_raw(), arena[second], arena.len()), (1, 'b', 2));
    }

    #[test]
    fn a_map_has_holes_and_keeps_the_last_value() {
        let index = Idx::<()>::from_raw;
        let mut map: ArenaMap<Idx<()>, char> = [(index(3), 'a')].into_iter().collect();
        assert_eq!(map.insert(index(3), 'b'), Some('a'));
        assert_eq!((map.get(index(3)), map.get(index(2))), (Some(&'b'), None));
        assert_eq!(map.get(index(9)), None);
        assert_eq!(map.iter().collect::<Vec<_>>(), [(index(3), &'b')]);
    }
}
