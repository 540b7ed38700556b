//! What the proof kit has in place of std and of crates, as far as the libraries use it. A call that grows a list or a
//! map answers a Result, and what is made is given the allocator, which takes no place here.
//!
//! - Where a source names `std`, `kit` stands in the plain one: the modules here are those that differ from std's.
//! - Where it names another crate of the proof kit, a module here stands for that: `kit::itoa`.

pub mod alloc;
pub mod boxed;
pub mod collections;
pub mod io;
pub mod itoa;
pub mod marker;
pub mod memchr;
pub mod rand_core;
pub mod rand_pcg;
pub mod simd;
pub mod smallvec;
pub mod vec;

pub use marker::Drop;
pub use std::{cmp, fmt, hash, mem, time};
pub use vec::Vec;
