//! Lists that keep few items in place.

use crate::alloc::{AllocError, Global};
use crate::vec::Vec;

/// A list that keeps at most `N` items in place.
pub enum SmallVec<T, const N: usize> {
    Here(u32, [T; N]),
    There(Vec<T>),
}

impl<T: Copy + Default, const N: usize> SmallVec<T, N> {
    #[inline]
    pub fn from_slice(alloc: Global, items: &[T]) -> Result<Self, AllocError> {
        if items.len() <= N {
            let mut here = [T::default(); N];
            here[..items.len()].copy_from_slice(items);
            return Ok(SmallVec::Here(items.len() as u32, here));
        }
        let mut list = Vec::new(alloc);
        list.reserve_exact(items.len())?;
        list.extend_from_slice(items)?;
        Ok(SmallVec::There(list))
    }

    #[inline]
    pub fn as_slice(&self) -> &[T] {
        match self {
            SmallVec::Here(len, here) => &here[..*len as usize],
            SmallVec::There(list) => list,
        }
    }
}
