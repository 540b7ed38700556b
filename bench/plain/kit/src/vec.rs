//! Lists whose growing calls answer a Result.

use crate::alloc::{AllocError, Global};
use std::fmt;
use std::ops::{Deref, DerefMut};

/// A list in memory of its own.
#[derive(PartialEq, Eq, PartialOrd, Ord)]
pub struct Vec<T>(std::vec::Vec<T>);

/// Makes room for one more item, where there is none.
#[cold]
#[inline(never)]
fn grow<T>(list: &mut std::vec::Vec<T>) -> Result<(), AllocError> {
    list.try_reserve(1).map_err(|_| AllocError)
}

impl<T> Vec<T> {
    #[inline]
    pub fn new(_: Global) -> Vec<T> {
        Vec(std::vec::Vec::new())
    }

    #[inline]
    pub fn allocator(&self) -> &Global {
        &Global
    }

    #[inline]
    pub fn push(&mut self, item: T) -> Result<(), AllocError> {
        if self.0.len() == self.0.capacity() {
            grow(&mut self.0)?;
        }
        self.0.push(item);
        Ok(())
    }

    /// Adds an item where there is room for it, which the caller has proved.
    #[inline]
    pub fn push_reserved(&mut self, item: T) {
        // SAFETY: there is room for one more.
        unsafe { std::hint::assert_unchecked(self.0.len() < self.0.capacity()) };
        self.0.push(item);
    }

    #[inline]
    pub fn reserve(&mut self, more: usize) -> Result<(), AllocError> {
        self.0.try_reserve(more).map_err(|_| AllocError)
    }

    #[inline]
    pub fn reserve_exact(&mut self, more: usize) -> Result<(), AllocError> {
        self.0.try_reserve_exact(more).map_err(|_| AllocError)
    }

    #[inline]
    pub fn as_slice(&self) -> &[T] {
        &self.0
    }

    #[inline]
    pub fn as_mut_slice(&mut self) -> &mut [T] {
        &mut self.0
    }

    #[inline]
    pub fn capacity(&self) -> usize {
        self.0.capacity()
    }

    #[inline]
    pub fn pop(&mut self) -> Option<T> {
        self.0.pop()
    }

    #[inline]
    pub fn swap_remove(&mut self, index: usize) -> T {
        self.0.swap_remove(index)
    }

    #[inline]
    pub fn truncate(&mut self, len: usize) {
        self.0.truncate(len)
    }

    #[inline]
    pub fn clear(&mut self) {
        self.0.clear()
    }

    #[inline]
    pub fn retain<F: FnMut(&T) -> bool>(&mut self, keep: F) {
        self.0.retain(keep)
    }
}

impl<T: Copy> Vec<T> {
    #[inline]
    pub fn extend_from_slice(&mut self, items: &[T]) -> Result<(), AllocError> {
        self.reserve(items.len())?;
        self.0.extend_from_slice(items);
        Ok(())
    }

    #[inline]
    pub fn resize(&mut self, len: usize, item: T) -> Result<(), AllocError> {
        self.reserve_exact(len.saturating_sub(self.0.len()))?;
        self.0.resize(len, item);
        Ok(())
    }
}

impl<T: PartialEq> Vec<T> {
    pub fn dedup(&mut self) {
        self.0.dedup()
    }
}

impl<T> Deref for Vec<T> {
    type Target = [T];

    #[inline]
    fn deref(&self) -> &[T] {
        &self.0
    }
}

impl<T> DerefMut for Vec<T> {
    #[inline]
    fn deref_mut(&mut self) -> &mut [T] {
        &mut self.0
    }
}

impl<T> IntoIterator for Vec<T> {
    type Item = T;
    type IntoIter = std::vec::IntoIter<T>;

    #[inline]
    fn into_iter(self) -> Self::IntoIter {
        self.0.into_iter()
    }
}

impl<'a, T> IntoIterator for &'a Vec<T> {
    type Item = &'a T;
    type IntoIter = std::slice::Iter<'a, T>;

    #[inline]
    fn into_iter(self) -> Self::IntoIter {
        self.0.iter()
    }
}

impl<T: fmt::Debug> fmt::Debug for Vec<T> {
    fn fmt(&self, f: &mut fmt::Formatter<'_>) -> fmt::Result {
        self.0.fmt(f)
    }
}
