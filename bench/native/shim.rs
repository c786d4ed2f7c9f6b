//! What the sources call of Rattle's std and of its crates, over Rust's std. Memory is never refused.
use std::borrow::Borrow;
use std::convert::Infallible;
use std::hash::{BuildHasherDefault, Hash, Hasher};
use std::marker::PhantomData;
use std::ops::{Deref, DerefMut};

pub mod prelude {
    pub use super::{Box, IterExt, SliceExt, StringExt, Vec};
}

pub mod alloc {
    pub use super::{AllocError, AllocFailed, Global};
}

pub mod rc {
    pub use super::Rc;
}

#[derive(Clone, Copy, PartialEq, Eq, Debug)]
pub struct Global;

#[derive(Clone, Copy, PartialEq, Eq, Debug)]
pub struct AllocError(Infallible);

#[derive(Clone, Copy)]
pub struct AllocFailed<T>(Infallible, PhantomData<T>);

impl<T> std::fmt::Debug for AllocFailed<T> {
    fn fmt(&self, _: &mut std::fmt::Formatter<'_>) -> std::fmt::Result {
        match self.0 {}
    }
}

impl<T> From<AllocFailed<T>> for AllocError {
    fn from(failed: AllocFailed<T>) -> Self {
        AllocError(failed.0)
    }
}

macro_rules! rvec {
    (in $alloc:expr; $item:expr; $count:expr) => {
        $crate::shim::Vec::filled($alloc, $item, $count)
    };
}
pub(crate) use rvec;

macro_rules! rformat {
    (in $alloc:expr; $($rest:tt)*) => {
        Ok::<String, $crate::shim::AllocError>({ let _ = $alloc; format!($($rest)*) })
    };
}
pub(crate) use rformat;

// Vectors.

#[derive(PartialEq, Eq, Debug, Hash)]
pub struct Vec<T>(std::vec::Vec<T>);

impl<T> Vec<T> {
    pub fn sort_by_key<K: Ord, F: FnMut(&T) -> K>(&mut self, key: F) -> Result<(), AllocError> {
        self.0.sort_by_key(key);
        Ok(())
    }

    #[inline]
    pub fn new(_: Global) -> Self {
        Vec(std::vec::Vec::new())
    }
    #[inline]
    pub fn with_capacity(_: Global, room: usize) -> Result<Self, AllocError> {
        Ok(Vec(std::vec::Vec::with_capacity(room)))
    }
    #[inline]
    pub fn filled(_: Global, item: T, count: usize) -> Result<Self, AllocError>
    where
        T: Clone,
    {
        Ok(Vec(std::vec![item; count]))
    }
    #[inline]
    pub fn from_slice(_: Global, items: &[T]) -> Result<Self, AllocError>
    where
        T: Clone,
    {
        Ok(Vec(items.to_vec()))
    }
    pub fn from_std(items: std::vec::Vec<T>) -> Self {
        Vec(items)
    }
    #[inline]
    pub fn push(&mut self, item: T) -> Result<(), AllocFailed<T>> {
        self.0.push(item);
        Ok(())
    }
    #[inline]
    pub fn pop(&mut self) -> Option<T> {
        self.0.pop()
    }
    #[inline]
    pub fn clear(&mut self) {
        self.0.clear()
    }
    #[inline]
    pub fn truncate(&mut self, count: usize) {
        self.0.truncate(count)
    }
    #[inline]
    pub fn capacity(&self) -> usize {
        self.0.capacity()
    }
    #[inline]
    pub fn remove(&mut self, place: usize) -> T {
        self.0.remove(place)
    }
    #[inline]
    pub fn swap_remove(&mut self, place: usize) -> T {
        self.0.swap_remove(place)
    }
    #[inline]
    pub fn insert(&mut self, place: usize, item: T) -> Result<(), AllocFailed<T>> {
        self.0.insert(place, item);
        Ok(())
    }
    #[inline]
    pub fn as_slice(&self) -> &[T] {
        &self.0
    }
    #[inline]
    pub fn as_mut_slice(&mut self) -> &mut [T] {
        &mut self.0
    }
    #[inline]
    pub fn extend_from_slice(&mut self, items: &[T]) -> Result<(), AllocError>
    where
        T: Clone,
    {
        self.0.extend_from_slice(items);
        Ok(())
    }
    #[inline]
    pub fn extend_from_within<R: std::ops::RangeBounds<usize>>(&mut self, range: R) -> Result<(), AllocError>
    where
        T: Clone,
    {
        self.0.extend_from_within(range);
        Ok(())
    }
    pub fn from_array<const N: usize>(_: Global, items: [T; N]) -> Result<Self, AllocError> {
        Ok(Vec(items.into()))
    }
    pub fn retain<F: FnMut(&T) -> bool>(&mut self, keep: F) {
        self.0.retain(keep)
    }
    pub fn drain<R: std::ops::RangeBounds<usize>>(&mut self, range: R) -> std::vec::Drain<'_, T> {
        self.0.drain(range)
    }
    pub fn dedup(&mut self)
    where
        T: PartialEq,
    {
        self.0.dedup()
    }
    pub fn sort(&mut self) -> Result<(), AllocError>
    where
        T: Ord,
    {
        self.0.sort();
        Ok(())
    }
    pub fn append(&mut self, other: &mut Self) -> Result<(), AllocError> {
        self.0.append(&mut other.0);
        Ok(())
    }
    pub fn reserve(&mut self, more: usize) -> Result<(), AllocError> {
        self.0.reserve(more);
        Ok(())
    }
    pub fn resize(&mut self, count: usize, item: T) -> Result<(), AllocFailed<T>>
    where
        T: Clone,
    {
        self.0.resize(count, item);
        Ok(())
    }
    pub fn clone(&self) -> Result<Self, AllocError>
    where
        T: Share,
    {
        Ok(Vec(self.0.iter().map(Share::share).collect()))
    }
}

/// What a clone of a vector or a pointer may copy.
pub trait Share {
    fn share(&self) -> Self;
}

impl<T> Share for Rc<T> {
    #[inline]
    fn share(&self) -> Self {
        Rc(std::rc::Rc::clone(&self.0))
    }
}

impl<T: Copy> Share for T {
    #[inline]
    fn share(&self) -> Self {
        *self
    }
}

impl<T> Deref for Vec<T> {
    type Target = [T];
    #[inline]
    fn deref(&self) -> &[T] {
        &self.0
    }
}

impl<T> DerefMut for Vec<T> {
    #[inline]
    fn deref_mut(&mut self) -> &mut [T] {
        &mut self.0
    }
}

impl<T> IntoIterator for Vec<T> {
    type Item = T;
    type IntoIter = std::vec::IntoIter<T>;
    #[inline]
    fn into_iter(self) -> Self::IntoIter {
        self.0.into_iter()
    }
}

impl<'a, T> IntoIterator for &'a Vec<T> {
    type Item = &'a T;
    type IntoIter = std::slice::Iter<'a, T>;
    #[inline]
    fn into_iter(self) -> Self::IntoIter {
        self.0.iter()
    }
}

impl<'a, T> IntoIterator for &'a mut Vec<T> {
    type Item = &'a mut T;
    type IntoIter = std::slice::IterMut<'a, T>;
    #[inline]
    fn into_iter(self) -> Self::IntoIter {
        self.0.iter_mut()
    }
}

pub trait SliceExt<T> {
    fn to_vec_with(&self, alloc: Global) -> Result<Vec<T>, AllocError>
    where
        T: Clone;
}

impl<T> SliceExt<T> for [T] {
    #[inline]
    fn to_vec_with(&self, _: Global) -> Result<Vec<T>, AllocError>
    where
        T: Clone,
    {
        Ok(Vec(self.to_vec()))
    }
}

pub trait StringExt {
    fn into_bytes_with(self) -> Vec<u8>;
}

impl StringExt for String {
    fn into_bytes_with(self) -> Vec<u8> {
        Vec(self.into_bytes())
    }
}

pub trait IterExt: Iterator + Sized {
    #[inline]
    fn collect_with(self, _: Global) -> Result<Vec<Self::Item>, AllocError> {
        Ok(Vec(self.collect()))
    }
}

impl<I: Iterator> IterExt for I {}

// Pointers.

#[derive(PartialEq, Eq, Debug)]
pub struct Box<T>(std::boxed::Box<T>);

impl<T> Box<T> {
    pub fn new(_: Global, item: T) -> Result<Self, AllocFailed<T>> {
        Ok(Box(std::boxed::Box::new(item)))
    }
    pub fn into_inner(this: Self) -> T {
        *this.0
    }
}

impl<T> Deref for Box<T> {
    type Target = T;
    fn deref(&self) -> &T {
        &self.0
    }
}

impl<T> DerefMut for Box<T> {
    fn deref_mut(&mut self) -> &mut T {
        &mut self.0
    }
}

#[derive(PartialEq, Eq, Debug)]
pub struct Rc<T>(std::rc::Rc<T>);

impl<T> Rc<T> {
    #[inline]
    pub fn new(_: Global, item: T) -> Result<Self, AllocFailed<T>> {
        Ok(Rc(std::rc::Rc::new(item)))
    }
    #[inline]
    pub fn clone(&self) -> Result<Self, AllocError> {
        Ok(Rc(std::rc::Rc::clone(&self.0)))
    }
    #[inline]
    pub fn ptr_eq(a: &Self, b: &Self) -> bool {
        std::rc::Rc::ptr_eq(&a.0, &b.0)
    }
}

impl<T> Deref for Rc<T> {
    type Target = T;
    #[inline]
    fn deref(&self) -> &T {
        &self.0
    }
}

// Maps in insertion order: entries, and an open table of their numbers plus 1.

#[derive(Default, Clone, Copy)]
pub struct FastHasher(u64);

const SEED: u64 = 0x9E37_79B9_7F4A_7C15;

impl FastHasher {
    #[inline]
    fn add(&mut self, word: u64) {
        self.0 = (self.0.rotate_left(5) ^ word).wrapping_mul(SEED);
    }
}

impl Hasher for FastHasher {
    #[inline]
    fn finish(&self) -> u64 {
        let x = self.0;
        (x ^ (x >> 32)).wrapping_mul(SEED) >> 20
    }
    #[inline]
    fn write(&mut self, bytes: &[u8]) {
        for piece in bytes.chunks(8) {
            let mut word = [0; 8];
            word[..piece.len()].copy_from_slice(piece);
            self.add(u64::from_le_bytes(word));
        }
    }
    #[inline]
    fn write_u8(&mut self, x: u8) {
        self.add(x as u64)
    }
    #[inline]
    fn write_u16(&mut self, x: u16) {
        self.add(x as u64)
    }
    #[inline]
    fn write_u32(&mut self, x: u32) {
        self.add(x as u64)
    }
    #[inline]
    fn write_u64(&mut self, x: u64) {
        self.add(x)
    }
    #[inline]
    fn write_usize(&mut self, x: usize) {
        self.add(x as u64)
    }
}

#[inline]
fn hash_of<Q: Hash + ?Sized>(key: &Q) -> u64 {
    let mut hasher = FastHasher::default();
    key.hash(&mut hasher);
    hasher.finish()
}

pub struct IndexMap<K, V> {
    entries: std::vec::Vec<(K, V)>,
    table: std::vec::Vec<u32>, // its length is a power of two, or nothing
}

impl<K: Hash + Eq, V> IndexMap<K, V> {
    pub fn new(_: Global) -> Self {
        IndexMap { entries: std::vec::Vec::new(), table: std::vec::Vec::new() }
    }
    #[inline]
    pub fn len(&self) -> usize {
        self.entries.len()
    }
    #[inline]
    pub fn is_empty(&self) -> bool {
        self.entries.is_empty()
    }
    pub fn clear(&mut self) {
        self.entries.clear();
        self.table.fill(0);
    }
    fn grow(&mut self) {
        let size = (self.table.len() * 2).max(16);
        self.table.clear();
        self.table.resize(size, 0);
        for (number, (key, _)) in self.entries.iter().enumerate() {
            let mut at = hash_of(key) as usize & (size - 1);
            while self.table[at] != 0 {
                at = (at + 1) & (size - 1);
            }
            self.table[at] = number as u32 + 1;
        }
    }
    #[inline]
    pub fn get_index_of<Q: Hash + Eq + ?Sized>(&self, key: &Q) -> Option<usize>
    where
        K: Borrow<Q>,
    {
        if self.table.is_empty() {
            return None;
        }
        let mask = self.table.len() - 1;
        let mut at = hash_of(key) as usize & mask;
        loop {
            let number = self.table[at];
            if number == 0 {
                return None;
            }
            if self.entries[number as usize - 1].0.borrow() == key {
                return Some(number as usize - 1);
            }
            at = (at + 1) & mask;
        }
    }
    #[inline]
    pub fn get<Q: Hash + Eq + ?Sized>(&self, key: &Q) -> Option<&V>
    where
        K: Borrow<Q>,
    {
        self.get_index_of(key).map(|number| &self.entries[number].1)
    }
    #[inline]
    pub fn get_mut<Q: Hash + Eq + ?Sized>(&mut self, key: &Q) -> Option<&mut V>
    where
        K: Borrow<Q>,
    {
        self.get_index_of(key).map(|number| &mut self.entries[number].1)
    }
    #[inline]
    pub fn contains_key<Q: Hash + Eq + ?Sized>(&self, key: &Q) -> bool
    where
        K: Borrow<Q>,
    {
        self.get_index_of(key).is_some()
    }
    #[inline]
    pub fn insert_full(&mut self, key: K, value: V) -> Result<(usize, Option<V>), AllocFailed<(K, V)>> {
        if (self.entries.len() + 1) * 2 > self.table.len() {
            self.grow();
        }
        let mask = self.table.len() - 1;
        let mut at = hash_of(&key) as usize & mask;
        loop {
            let number = self.table[at];
            if number == 0 {
                break;
            }
            let entry = &mut self.entries[number as usize - 1];
            if entry.0 == key {
                let old = std::mem::replace(&mut entry.1, value);
                return Ok((number as usize - 1, Some(old)));
            }
            at = (at + 1) & mask;
        }
        let number = self.entries.len();
        self.table[at] = number as u32 + 1;
        self.entries.push((key, value));
        Ok((number, None))
    }
    #[inline]
    pub fn insert(&mut self, key: K, value: V) -> Result<Option<V>, AllocFailed<(K, V)>> {
        let (_, old) = self.insert_full(key, value)?;
        Ok(old)
    }
    #[inline]
    pub fn get_index(&self, number: usize) -> Option<(&K, &V)> {
        self.entries.get(number).map(|entry| (&entry.0, &entry.1))
    }
    pub fn iter(&self) -> impl Iterator<Item = (&K, &V)> {
        self.entries.iter().map(|entry| (&entry.0, &entry.1))
    }
}

pub struct IndexSet<K>(IndexMap<K, ()>);

impl<K: Hash + Eq> IndexSet<K> {
    pub fn new(alloc: Global) -> Self {
        IndexSet(IndexMap::new(alloc))
    }
    #[inline]
    pub fn len(&self) -> usize {
        self.0.len()
    }
    #[inline]
    pub fn is_empty(&self) -> bool {
        self.0.is_empty()
    }
    pub fn clear(&mut self) {
        self.0.clear()
    }
    #[inline]
    pub fn insert_full(&mut self, key: K) -> Result<(usize, bool), AllocFailed<K>> {
        let Ok((number, old)) = self.0.insert_full(key, ());
        Ok((number, old.is_none()))
    }
    #[inline]
    pub fn insert(&mut self, key: K) -> Result<bool, AllocFailed<K>> {
        let (_, new) = self.insert_full(key)?;
        Ok(new)
    }
    #[inline]
    pub fn get_index_of<Q: Hash + Eq + ?Sized>(&self, key: &Q) -> Option<usize>
    where
        K: Borrow<Q>,
    {
        self.0.get_index_of(key)
    }
    #[inline]
    pub fn contains<Q: Hash + Eq + ?Sized>(&self, key: &Q) -> bool
    where
        K: Borrow<Q>,
    {
        self.0.contains_key(key)
    }
    #[inline]
    pub fn get_index(&self, number: usize) -> Option<&K> {
        self.0.entries.get(number).map(|entry| &entry.0)
    }
    pub fn iter(&self) -> impl Iterator<Item = &K> {
        self.0.entries.iter().map(|entry| &entry.0)
    }
}

impl<K> std::ops::Index<usize> for IndexSet<K> {
    type Output = K;
    #[inline]
    fn index(&self, number: usize) -> &K {
        &self.0.entries[number].0
    }
}

pub mod indexmap {
    pub use super::{IndexMap, IndexSet};
}

// Short vectors and texts.

pub mod arrayvec {
    use std::mem::MaybeUninit;
    use std::ops::{Deref, DerefMut};

    #[derive(Clone, Copy)]
    pub struct ArrayVec<T: Copy, const N: usize> {
        items: [MaybeUninit<T>; N],
        count: u32,
    }

    impl<T: Copy, const N: usize> ArrayVec<T, N> {
        #[inline]
        pub fn new() -> Self {
            ArrayVec { items: [const { MaybeUninit::uninit() }; N], count: 0 }
        }
        #[inline]
        pub fn push(&mut self, item: T) {
            self.items[self.count as usize] = MaybeUninit::new(item);
            self.count += 1;
        }
        #[inline]
        pub fn pop(&mut self) -> Option<T> {
            let last = self.as_slice().last().copied()?;
            self.count -= 1;
            Some(last)
        }
        #[inline]
        pub fn clear(&mut self) {
            self.count = 0;
        }
        #[inline]
        pub fn as_slice(&self) -> &[T] {
            unsafe { std::slice::from_raw_parts(self.items.as_ptr().cast(), self.count as usize) }
        }
    }

    impl<T: Copy, const N: usize> Deref for ArrayVec<T, N> {
        type Target = [T];
        #[inline]
        fn deref(&self) -> &[T] {
            self.as_slice()
        }
    }

    impl<T: Copy, const N: usize> DerefMut for ArrayVec<T, N> {
        #[inline]
        fn deref_mut(&mut self) -> &mut [T] {
            unsafe { std::slice::from_raw_parts_mut(self.items.as_mut_ptr().cast(), self.count as usize) }
        }
    }

    #[derive(Clone, Copy)]
    pub struct ArrayString<const N: usize> {
        bytes: [u8; N],
        count: usize,
    }

    impl<const N: usize> ArrayString<N> {
        pub fn new() -> Self {
            ArrayString { bytes: [0; N], count: 0 }
        }
        pub fn push(&mut self, letter: char) {
            let mut room = [0; 4];
            self.push_str(letter.encode_utf8(&mut room));
        }
        pub fn push_str(&mut self, text: &str) {
            let end = self.count + text.len();
            self.bytes[self.count..end].copy_from_slice(text.as_bytes());
            self.count = end;
        }
        pub fn as_str(&self) -> &str {
            str::from_utf8(&self.bytes[..self.count]).unwrap()
        }
        pub fn clear(&mut self) {
            self.count = 0;
        }
    }

    impl<const N: usize> Deref for ArrayString<N> {
        type Target = str;
        fn deref(&self) -> &str {
            self.as_str()
        }
    }

    impl<const N: usize> std::fmt::Display for ArrayString<N> {
        fn fmt(&self, f: &mut std::fmt::Formatter<'_>) -> std::fmt::Result {
            f.write_str(self.as_str())
        }
    }

    impl<const N: usize> std::fmt::Write for ArrayString<N> {
        fn write_str(&mut self, text: &str) -> std::fmt::Result {
            self.push_str(text);
            Ok(())
        }
    }
}

pub mod itoa {
    pub struct Buffer(String);

    impl Buffer {
        pub fn new() -> Self {
            Buffer(String::new())
        }
        pub fn format<N: std::fmt::Display>(&mut self, number: N) -> &str {
            self.0 = number.to_string();
            &self.0
        }
    }
}

pub mod byteorder {
    pub trait ByteOrder {
        fn write_u16(bytes: &mut [u8], value: u16);
        fn read_u16(bytes: &[u8]) -> u16;
    }

    pub struct LittleEndian;

    impl ByteOrder for LittleEndian {
        fn write_u16(bytes: &mut [u8], value: u16) {
            bytes[..2].copy_from_slice(&value.to_le_bytes())
        }
        fn read_u16(bytes: &[u8]) -> u16 {
            u16::from_le_bytes([bytes[0], bytes[1]])
        }
    }
}

pub mod circular_buffer {
    use super::{AllocError, Global};

    pub struct HeapCircularBuffer<T> {
        items: std::collections::VecDeque<T>,
        most: usize,
    }

    impl<T> HeapCircularBuffer<T> {
        pub fn with_capacity(_: Global, most: usize) -> Result<Self, AllocError> {
            Ok(HeapCircularBuffer { items: std::collections::VecDeque::with_capacity(most), most })
        }
        /// Gives the item that was pushed out, or the new one where there is no room for any.
        pub fn push_back(&mut self, item: T) -> Option<T> {
            if self.most == 0 {
                return Some(item);
            }
            let out = if self.items.len() == self.most { self.items.pop_front() } else { None };
            self.items.push_back(item);
            out
        }
        pub fn pop_back(&mut self) -> Option<T> {
            self.items.pop_back()
        }
        pub fn len(&self) -> usize {
            self.items.len()
        }
        pub fn capacity(&self) -> usize {
            self.most
        }
        pub fn is_empty(&self) -> bool {
            self.items.is_empty()
        }
        pub fn is_full(&self) -> bool {
            self.items.len() == self.most
        }
        pub fn clear(&mut self) {
            self.items.clear()
        }
    }
}
