//! Traits of types. Those that speak to clauses alone have nothing here.

pub use std::marker::PhantomData;

/// What clauses see of a type.
pub trait Model {}

/// A type whose values may be let go: each one.
pub trait Drop {}

impl<T: ?Sized> Drop for T {}
