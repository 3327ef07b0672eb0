//! `base62-proved` under the name that dependencies of `base62` 2.2 require.

#![no_std]

pub use proved::*;
