// SPDX-License-Identifier: MIT
// Copyright (c) 2026 the maintainers of base62 for Rattle

//! A buffer that returns an error if an allocation fails. With a `Vec` the program would end then.

use std::io::{self, ErrorKind, Write};

/// A `Vec<u8>` with the calls that the program needs.
pub(crate) struct Bytes(pub(crate) Vec<u8>);

impl Bytes {
    pub(crate) fn new() -> Bytes {
        Bytes(Vec::new())
    }

    pub(crate) fn as_slice(&self) -> &[u8] {
        &self.0
    }

    pub(crate) fn clear(&mut self) {
        self.0.clear();
    }

    pub(crate) fn reserve(&mut self, count: usize) -> io::Result<()> {
        let reserved = self.0.try_reserve(count);
        reserved.map_err(|_| ErrorKind::OutOfMemory.into())
    }
}

impl Write for Bytes {
    /// Appends all bytes, or none if an allocation fails.
    fn write(&mut self, bytes: &[u8]) -> io::Result<usize> {
        self.reserve(bytes.len())?;
        self.0.write(bytes)
    }

    fn flush(&mut self) -> io::Result<()> {
        Ok(())
    }
}

/// A long line is read in parts. If each of them moved those before it, the time would be quadratic.
#[cfg(test)]
#[test]
fn capacity_is_amortized() {
    let (mut bytes, mut allocations) = (Bytes::new(), 0);
    for _ in 0..10_000 {
        let before = bytes.0.capacity();
        bytes.write_all(b"0").unwrap();
        allocations += u32::from(bytes.0.capacity() > before);
    }
    assert!(allocations < 20, "{allocations}");
}
