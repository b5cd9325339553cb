//! What the proved crates have of their language's library, over Rust's own: lists, maps and draws. An allocator is handed over and
//! not asked, and memory is never refused: where it is out, the program ends.
#![allow(dead_code)]

use std::collections::HashMap;
use std::hash::{BuildHasherDefault, Hash, Hasher};
use std::ops::{BitAnd, BitOr, BitXor, Deref, DerefMut, Index, IndexMut, Not};

type Std<T> = std::vec::Vec<T>;

#[derive(Clone, Copy, Debug)]
pub struct Global;

#[derive(Clone, Copy, Debug, PartialEq, Eq)]
pub struct AllocError;

#[derive(Debug)]
pub struct AllocFailed<T> {
    pub value: T,
}

impl<T> From<AllocFailed<T>> for AllocError {
    fn from(_: AllocFailed<T>) -> AllocError {
        AllocError
    }
}

/// `vec![in alloc; value; count]`, and `vec![in alloc; one, other]`.
macro_rules! vec {
    (in $alloc:expr; $value:expr; $count:expr) => {{
        let _ = $alloc;
        Ok::<_, $crate::prelude::AllocError>($crate::prelude::Vec(std::vec::from_elem($value, $count as usize)))
    }};
    (in $alloc:expr; $($value:expr),* $(,)?) => {{
        let _ = $alloc;
        Ok::<_, $crate::prelude::AllocError>($crate::prelude::Vec(std::vec![$($value),*]))
    }};
}

/// A value that contracts alone read: it has no bytes.
pub struct Snapshot<T>(std::marker::PhantomData<T>);

impl<T> Snapshot<T> {
    pub fn of(_: &T) -> Snapshot<T> {
        Snapshot(std::marker::PhantomData)
    }
}

// ---- lists

#[derive(Clone, Debug, PartialEq, Eq, PartialOrd, Ord, Hash)]
pub struct Vec<T>(pub Std<T>);

#[derive(Clone, Debug, PartialEq, Eq, PartialOrd, Ord, Hash)]
pub struct Items<T>(pub Std<T>);

#[derive(Clone, Debug, PartialEq, Eq, PartialOrd, Ord, Hash)]
pub struct Few<T, const N: usize>(pub Std<T>);

macro_rules! list {
    ($list:ident<$t:ident $(, $n:ident)?>) => {
        impl<$t $(, const $n: usize)?> $list<$t $(, $n)?> {
            pub fn new(_: Global) -> Self {
                $list(Std::new())
            }

            pub fn with_capacity(_: Global, count: usize) -> Result<Self, AllocError> {
                Ok($list(Std::with_capacity(count)))
            }

            #[inline]
            pub fn push(&mut self, value: $t) -> Result<(), AllocFailed<$t>> {
                self.0.push(value);
                Ok(())
            }

            #[inline]
            pub fn push_reserved(&mut self, value: $t) {
                self.0.push(value)
            }

            #[inline]
            pub fn pop(&mut self) -> Option<$t> {
                self.0.pop()
            }

            pub fn insert(&mut self, place: usize, value: $t) -> Result<(), AllocError> {
                self.0.insert(place, value);
                Ok(())
            }

            #[inline]
            pub fn set(&mut self, place: usize, value: $t) {
                self.0[place] = value
            }

            pub fn remove(&mut self, place: usize) -> $t {
                self.0.remove(place)
            }

            pub fn swap_remove(&mut self, place: usize) -> $t {
                self.0.swap_remove(place)
            }

            pub fn retain(&mut self, keeps: impl FnMut(&$t) -> bool) {
                self.0.retain(keeps)
            }

            pub fn truncate(&mut self, count: usize) {
                self.0.truncate(count)
            }

            pub fn clear(&mut self) {
                self.0.clear()
            }

            pub fn capacity(&self) -> usize {
                self.0.capacity()
            }

            pub fn reserve(&mut self, more: usize) -> Result<(), AllocError> {
                self.0.reserve(more);
                Ok(())
            }

            pub fn reserve_exact(&mut self, more: usize) -> Result<(), AllocError> {
                self.0.reserve_exact(more);
                Ok(())
            }

            #[inline]
            pub fn as_slice(&self) -> &[$t] {
                &self.0
            }

            #[inline]
            pub fn as_mut_slice(&mut self) -> &mut [$t] {
                &mut self.0
            }
        }

        impl<$t: Clone $(, const $n: usize)?> $list<$t $(, $n)?> {
            pub fn from_slice(_: Global, values: &[$t]) -> Result<Self, AllocError> {
                Ok($list(values.to_vec()))
            }

            pub fn extend_from_slice(&mut self, values: &[$t]) -> Result<(), AllocError> {
                self.0.extend_from_slice(values);
                Ok(())
            }

            pub fn resize(&mut self, count: usize, value: $t) -> Result<(), AllocError> {
                self.0.resize(count, value);
                Ok(())
            }
        }

        impl<$t: Ord $(, const $n: usize)?> $list<$t $(, $n)?> {
            pub fn sort(&mut self) -> Result<(), AllocError> {
                self.0.sort();
                Ok(())
            }
        }

        impl<$t $(, const $n: usize)?> Deref for $list<$t $(, $n)?> {
            type Target = [$t];

            #[inline]
            fn deref(&self) -> &[$t] {
                &self.0
            }
        }

        impl<$t $(, const $n: usize)?> DerefMut for $list<$t $(, $n)?> {
            #[inline]
            fn deref_mut(&mut self) -> &mut [$t] {
                &mut self.0
            }
        }

        impl<$t $(, const $n: usize)?> IntoIterator for $list<$t $(, $n)?> {
            type Item = $t;
            type IntoIter = std::vec::IntoIter<$t>;

            fn into_iter(self) -> Self::IntoIter {
                self.0.into_iter()
            }
        }

        impl<'a, $t $(, const $n: usize)?> IntoIterator for &'a $list<$t $(, $n)?> {
            type Item = &'a $t;
            type IntoIter = std::slice::Iter<'a, $t>;

            fn into_iter(self) -> Self::IntoIter {
                self.0.iter()
            }
        }
    };
}

list!(Vec<T>);
list!(Items<T>);
list!(Few<T, N>);

impl<T> Items<T> {
    pub fn from_vec(list: Vec<T>) -> Items<T> {
        Items(list.0)
    }

    pub fn into_vec(self) -> Vec<T> {
        Vec(self.0)
    }
}

impl<T> From<Vec<T>> for Items<T> {
    fn from(list: Vec<T>) -> Items<T> {
        Items(list.0)
    }
}

// ---- what Rust does without an allocator: `plain_copy.py` calls these in its place

pub trait TryClone: Clone {
    fn try_clone(&self) -> Result<Self, AllocError> {
        Ok(self.clone())
    }
}

impl<T: Clone> TryClone for T {}

pub trait CollectIn: Iterator + Sized {
    fn collect_in(self, _: Global) -> Result<Vec<Self::Item>, AllocError> {
        Ok(Vec(self.collect()))
    }
}

impl<I: Iterator> CollectIn for I {}

pub trait CopiedIn<T> {
    fn copied_in(&self, alloc: Global) -> Result<Vec<T>, AllocError>;
}

impl<T: Clone> CopiedIn<T> for [T] {
    fn copied_in(&self, _: Global) -> Result<Vec<T>, AllocError> {
        Ok(Vec(self.to_vec()))
    }
}

// ---- several words at once

macro_rules! lanes {
    ($lanes:ident, $count:expr) => {
        #[allow(non_camel_case_types)]
        #[derive(Clone, Copy, Debug, PartialEq, Eq)]
        #[repr(align(32))]
        pub struct $lanes(pub [u64; $count]);

        impl $lanes {
            #[inline]
            pub fn splat(word: u64) -> Self {
                $lanes([word; $count])
            }

            #[inline]
            pub fn to_array(self) -> [u64; $count] {
                self.0
            }

            #[inline]
            pub fn from_array(words: [u64; $count]) -> Self {
                $lanes(words)
            }

            #[inline]
            pub fn from_slice(words: &[u64]) -> Self {
                let mut made = [0; $count];
                made.copy_from_slice(&words[..$count]);
                $lanes(made)
            }

            #[inline]
            pub fn copy_to_slice(self, words: &mut [u64]) {
                words[..$count].copy_from_slice(&self.0)
            }
        }

        lanes!($lanes, $count, BitAnd, bitand, &=);
        lanes!($lanes, $count, BitOr, bitor, |=);
        lanes!($lanes, $count, BitXor, bitxor, ^=);

        impl Not for $lanes {
            type Output = Self;

            #[inline]
            fn not(self) -> Self {
                $lanes(self.0.map(|word| !word))
            }
        }

        impl Index<usize> for $lanes {
            type Output = u64;

            #[inline]
            fn index(&self, place: usize) -> &u64 {
                &self.0[place]
            }
        }

        impl IndexMut<usize> for $lanes {
            #[inline]
            fn index_mut(&mut self, place: usize) -> &mut u64 {
                &mut self.0[place]
            }
        }
    };
    ($lanes:ident, $count:expr, $operator:ident, $name:ident, $assign:tt) => {
        impl $operator for $lanes {
            type Output = Self;

            #[inline]
            fn $name(mut self, other: Self) -> Self {
                for place in 0..$count {
                    self.0[place] $assign other.0[place];
                }
                self
            }
        }
    };
}

lanes!(u64x4, 4);
lanes!(u64x8, 8);

// ---- draws

/// PCG XSH RR 64/32 (O'Neill), which `rand_pcg` has under this name.
#[derive(Clone, Debug)]
pub struct Pcg32 {
    state: u64,
    increment: u64,
}

impl Pcg32 {
    pub fn new(state: u64, stream: u64) -> Pcg32 {
        let increment = (stream << 1) | 1;
        let state = state.wrapping_add(increment);
        let mut made = Pcg32 { state, increment };
        made.step();
        made
    }

    fn step(&mut self) {
        self.state = self
            .state
            .wrapping_mul(6364136223846793005)
            .wrapping_add(self.increment);
    }

    pub fn next_u32(&mut self) -> u32 {
        let state = self.state;
        self.step();
        let turn = (state >> 59) as u32;
        ((((state >> 18) ^ state) >> 27) as u32).rotate_right(turn)
    }

    pub fn next_u64(&mut self) -> u64 {
        let low = self.next_u32() as u64;
        let high = self.next_u32() as u64;
        low | (high << 32)
    }
}

// ---- maps in the order of insertion

/// A hash that costs little (that of rustc): what is hashed here is short.
#[derive(Default)]
pub struct ShortHasher(u64);

impl Hasher for ShortHasher {
    fn finish(&self) -> u64 {
        self.0 ^ (self.0 >> 32)
    }

    fn write(&mut self, bytes: &[u8]) {
        for byte in bytes {
            self.write_u64(*byte as u64)
        }
    }

    fn write_u8(&mut self, value: u8) {
        self.write_u64(value as u64)
    }

    fn write_u32(&mut self, value: u32) {
        self.write_u64(value as u64)
    }

    fn write_u64(&mut self, value: u64) {
        self.0 = (self.0.rotate_left(5) ^ value).wrapping_mul(0x517cc1b727220a95);
    }

    fn write_usize(&mut self, value: usize) {
        self.write_u64(value as u64)
    }
}

#[derive(Debug)]
pub struct IndexMap<K, T> {
    places: HashMap<K, usize, BuildHasherDefault<ShortHasher>>,
    entries: Std<(K, T)>,
}

impl<K: Hash + Eq + Clone, T> IndexMap<K, T> {
    pub fn new(_: Global) -> IndexMap<K, T> {
        IndexMap {
            places: HashMap::default(),
            entries: Std::new(),
        }
    }

    pub fn get_index_of(&self, key: &K) -> Option<usize> {
        self.places.get(key).copied()
    }

    pub fn contains_key(&self, key: &K) -> bool {
        self.places.contains_key(key)
    }

    pub fn get(&self, key: &K) -> Option<&T> {
        Some(&self.entries[self.get_index_of(key)?].1)
    }

    pub fn get_mut(&mut self, key: &K) -> Option<&mut T> {
        let place = self.get_index_of(key)?;
        Some(&mut self.entries[place].1)
    }

    pub fn insert(&mut self, key: K, value: T) -> Result<Option<T>, AllocError> {
        if let Some(place) = self.get_index_of(&key) {
            return Ok(Some(std::mem::replace(&mut self.entries[place].1, value)));
        }
        self.places.insert(key.clone(), self.entries.len());
        self.entries.push((key, value));
        Ok(None)
    }

    pub fn get_index(&self, place: usize) -> Option<(&K, &T)> {
        let (key, value) = self.entries.get(place)?;
        Some((key, value))
    }

    pub fn len(&self) -> usize {
        self.entries.len()
    }

    pub fn is_empty(&self) -> bool {
        self.entries.is_empty()
    }

    pub fn clear(&mut self) {
        self.places.clear();
        self.entries.clear()
    }

    pub fn iter(&self) -> impl Iterator<Item = (&K, &T)> {
        self.entries.iter().map(|(key, value)| (key, value))
    }

    pub fn keys(&self) -> impl Iterator<Item = &K> {
        self.entries.iter().map(|(key, _)| key)
    }

    pub fn values(&self) -> impl Iterator<Item = &T> {
        self.entries.iter().map(|(_, value)| value)
    }
}

#[derive(Debug)]
pub struct IndexSet<K> {
    places: HashMap<K, usize, BuildHasherDefault<ShortHasher>>,
    keys: Std<K>,
}

impl<K: Hash + Eq + Clone> IndexSet<K> {
    pub fn new(_: Global) -> IndexSet<K> {
        IndexSet {
            places: HashMap::default(),
            keys: Std::new(),
        }
    }

    pub fn get_index_of(&self, key: &K) -> Option<usize> {
        self.places.get(key).copied()
    }

    pub fn contains(&self, key: &K) -> bool {
        self.places.contains_key(key)
    }

    pub fn insert_full(&mut self, key: K) -> Result<(usize, bool), AllocError> {
        let count = self.len();
        match self.get_index_of(&key) {
            Some(place) => Ok((place, false)),
            None => {
                self.places.insert(key.clone(), count);
                self.keys.push(key);
                Ok((count, true))
            }
        }
    }

    pub fn insert(&mut self, key: K) -> Result<bool, AllocError> {
        Ok(self.insert_full(key)?.1)
    }

    pub fn get_index(&self, place: usize) -> Option<&K> {
        self.keys.get(place)
    }

    pub fn as_slice(&self) -> &[K] {
        &self.keys
    }

    pub fn len(&self) -> usize {
        self.keys.len()
    }

    pub fn is_empty(&self) -> bool {
        self.keys.is_empty()
    }
}

/// The digits of a number, as itoa writes them.
pub struct Buffer(String);

impl Buffer {
    pub fn new() -> Buffer {
        Buffer(String::new())
    }

    pub fn format(&mut self, number: u64) -> &str {
        self.0 = number.to_string();
        &self.0
    }
}

/// Numbers as bytes, the highest first, as byteorder writes them.
pub struct BigEndian;

impl BigEndian {
    pub fn write_u64(to: &mut [u8], number: u64) {
        to.copy_from_slice(&number.to_be_bytes());
    }

    pub fn write_u32(to: &mut [u8], number: u32) {
        to.copy_from_slice(&number.to_be_bytes());
    }
}

impl<T> Vec<T> {
    pub fn allocator(&self) -> &Global {
        &Global
    }
}
