// SPDX-License-Identifier: MIT
// Copyright (c) 2026 the maintainers of base62 for Rattle

#![no_std]
// docs.rs then says of each call which feature it needs.
#![cfg_attr(docsrs, feature(doc_cfg))]
#![cfg_attr(feature = "checked", forbid(unsafe_code))]
// The examples of README need `String`.
#![cfg_attr(feature = "alloc", doc = include_str!("../README.md"), warn(missing_docs))]
// Comments name calls of all features.
#![cfg_attr(not(feature = "std"), allow(rustdoc::broken_intra_doc_links))]

#[cfg(feature = "alloc")]
extern crate alloc;
#[cfg(feature = "std")]
extern crate std;

// Hand-written: what the translated modules depend on, and traits of Rust.
#[macro_use]
mod support {
    #[macro_use]
    pub(crate) mod contract;
    pub(crate) mod inline;
    pub(crate) mod traits;
}

// Translated from `crates/base62`.
mod generated;

pub use generated::*;
pub use support::traits::ParseAlphabetError;
