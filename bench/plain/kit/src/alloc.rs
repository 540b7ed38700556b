//! The allocator.

/// The global allocator, as a value that is passed on.
#[derive(Clone, Copy, Debug, PartialEq, Eq)]
pub struct Global;

/// The allocator refused a growth.
#[derive(Clone, Copy, Debug, PartialEq, Eq)]
pub struct AllocError;
