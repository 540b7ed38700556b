//! Boxes.

use crate::alloc::{AllocError, Global};

/// A value in a box, as `Box::new` answers it. A box is std's, so that one of a trait's objects can be made of it.
#[inline]
pub fn new<T>(_: Global, value: T) -> Result<Box<T>, AllocError> {
    Ok(Box::new(value))
}
