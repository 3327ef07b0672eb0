// SPDX-License-Identifier: MIT
// Copyright (c) 2026 the maintainers of base62 for Rattle

//! A string of at most `N` bytes, without an allocator, in place of `InlineText` of Rattle's `std`.

#[derive(Clone, Copy)]
pub(crate) struct InlineText<const N: usize> {
    bytes: [u8; N],
    len: usize,
}

impl<const N: usize> InlineText<N> {
    pub(crate) fn new() -> InlineText<N> {
        let (bytes, len) = ([0; N], 0);
        InlineText { bytes, len }
    }

    /// Appends a part. In the source, each part is proved to fit.
    pub(crate) fn and_str(mut self, part: &str) -> InlineText<N> {
        let end = self.len + part.len();
        self.bytes[self.len..end].copy_from_slice(part.as_bytes());
        self.len = end;
        self
    }

    pub(crate) fn as_str(&self) -> &str {
        core::str::from_utf8(&self.bytes[..self.len]).unwrap()
    }
}
