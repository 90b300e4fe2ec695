//! Lists, texts and queues of Rust whose growth can be refused.
use super::alloc::{AllocError, Global};
use core::fmt::{self, Debug, Display};
use core::ops::{Deref, DerefMut};
use heap::collections::VecDeque as Queue;
use heap::string::{FromUtf8Error, String as Text};
use heap::vec::Vec as List;

/// One of Rust's collections, with the calls that the sources use.
pub struct Refusable<C>(pub(crate) C);

pub type Vec<T> = Refusable<List<T>>;
pub type VecDeque<T> = Refusable<Queue<T>>;
pub type String = Refusable<Text>;

impl<T> Vec<T> {
    pub fn new(_: Global) -> Self { Refusable(List::new()) }
    pub fn with_capacity(alloc: Global, n: usize) -> Result<Self, AllocError> {
        let mut items = Vec::new(alloc);
        items.0.try_reserve_exact(n).map_err(|_| AllocError)?;
        Ok(items)
    }
    pub fn filled(alloc: Global, item: T, n: usize) -> Result<Self, AllocError> where T: Clone {
        let mut items = Vec::with_capacity(alloc, n)?;
        items.0.resize(n, item);
        Ok(items)
    }
    #[inline]
    pub fn push(&mut self, item: T) -> Result<(), AllocError> {
        self.0.try_reserve(1).map_err(|_| AllocError)?;
        self.0.push(item);
        Ok(())
    }
    /// Pushes into room that there is.
    #[inline]
    pub fn push_reserved(&mut self, item: T) {
        debug_assert!(self.0.len() < self.0.capacity());
        self.0.push(item);
    }
    pub fn extend_from_slice(&mut self, items: &[T]) -> Result<(), AllocError> where T: Copy {
        self.0.try_reserve(items.len()).map_err(|_| AllocError)?;
        self.0.extend_from_slice(items);
        Ok(())
    }
    pub fn pop(&mut self) -> Option<T> { self.0.pop() }
    pub fn remove(&mut self, index: usize) -> T { self.0.remove(index) }
    pub fn truncate(&mut self, n: usize) { self.0.truncate(n); }
    pub fn capacity(&self) -> usize { self.0.capacity() }
    #[inline(always)]
    pub fn as_slice(&self) -> &[T] { self }
    #[inline(always)]
    pub fn as_mut_slice(&mut self) -> &mut [T] { self }
}

impl<T> VecDeque<T> {
    pub fn with_capacity(alloc: Global, n: usize) -> Result<Self, AllocError> {
        Vec::with_capacity(alloc, n).map(VecDeque::from)
    }
    pub fn len(&self) -> usize { self.0.len() }
    pub fn push_back_reserved(&mut self, item: T) { self.0.push_back(item); }
    pub fn push_front_reserved(&mut self, item: T) { self.0.push_front(item); }
    pub fn pop_front(&mut self) -> Option<T> { self.0.pop_front() }
}

impl<T> From<Vec<T>> for VecDeque<T> {
    fn from(items: Vec<T>) -> Self { Refusable(items.0.into()) }
}

impl<T> From<VecDeque<T>> for Vec<T> {
    fn from(queue: VecDeque<T>) -> Self { Refusable(queue.0.into()) }
}

impl String {
    pub fn new(_: Global) -> Self { Refusable(Text::new()) }
    pub fn from_str(alloc: Global, text: &str) -> Result<Self, AllocError> {
        let mut copy = String::new(alloc);
        copy.push_str(text)?;
        Ok(copy)
    }
    pub fn from_utf8(bytes: Vec<u8>) -> Result<Self, FromUtf8Error> {
        Text::from_utf8(bytes.0).map(Refusable)
    }
    /// The text that `format!` asks for.
    pub fn formatted(alloc: Global, arguments: fmt::Arguments<'_>) -> Result<Self, AllocError> {
        let mut text = String::new(alloc);
        fmt::Write::write_fmt(&mut text, arguments).map_err(|_| AllocError)?;
        Ok(text)
    }
    pub fn push_str(&mut self, text: &str) -> Result<(), AllocError> {
        self.0.try_reserve(text.len()).map_err(|_| AllocError)?;
        self.0.push_str(text);
        Ok(())
    }
    pub fn as_str(&self) -> &str { self }
}

impl<C: Deref> Deref for Refusable<C> {
    type Target = C::Target;
    #[inline(always)]
    fn deref(&self) -> &C::Target { &self.0 }
}

impl<C: DerefMut> DerefMut for Refusable<C> {
    #[inline(always)]
    fn deref_mut(&mut self) -> &mut C::Target { &mut self.0 }
}

impl<C: IntoIterator> IntoIterator for Refusable<C> {
    type Item = C::Item;
    type IntoIter = C::IntoIter;
    fn into_iter(self) -> C::IntoIter { self.0.into_iter() }
}

impl<'a, T> IntoIterator for &'a Vec<T> {
    type Item = &'a T;
    type IntoIter = core::slice::Iter<'a, T>;
    fn into_iter(self) -> Self::IntoIter { self.iter() }
}

impl<C: Debug> Debug for Refusable<C> {
    fn fmt(&self, f: &mut fmt::Formatter<'_>) -> fmt::Result { self.0.fmt(f) }
}

impl<C: Display> Display for Refusable<C> {
    fn fmt(&self, f: &mut fmt::Formatter<'_>) -> fmt::Result { self.0.fmt(f) }
}

impl fmt::Write for String {
    fn write_str(&mut self, text: &str) -> fmt::Result {
        self.push_str(text).map_err(|_| fmt::Error)
    }
}

#[cfg(feature = "program")]
impl std::io::Write for Vec<u8> {
    fn write(&mut self, bytes: &[u8]) -> std::io::Result<usize> {
        self.extend_from_slice(bytes)?;
        Ok(bytes.len())
    }
    fn flush(&mut self) -> std::io::Result<()> { Ok(()) }
}

/// Rust's calls that take memory, with an allocator.
pub trait InMemory {
    fn to_vec_by<T: Copy>(&self, alloc: Global) -> Result<Vec<T>, AllocError>
    where
        Self: AsRef<[T]>,
    {
        let mut items = Vec::new(alloc);
        items.extend_from_slice(self.as_ref())?;
        Ok(items)
    }
    fn replace_by(&self, _: Global, from: &str, to: &str) -> Result<String, AllocError>
    where
        Self: AsRef<str>,
    {
        Ok(Refusable(self.as_ref().replace(from, to)))
    }
    fn repeat_by(&self, _: Global, n: usize) -> Result<String, AllocError>
    where
        Self: AsRef<str>,
    {
        Ok(Refusable(self.as_ref().repeat(n)))
    }
    fn collect_by<C: From<Vec<Self::Item>>>(self, alloc: Global) -> Result<C, AllocError>
    where
        Self: Iterator + Sized,
    {
        let mut items = Vec::new(alloc);
        for item in self {
            items.push(item)?;
        }
        Ok(items.into())
    }
}

impl<X: ?Sized> InMemory for X {}
