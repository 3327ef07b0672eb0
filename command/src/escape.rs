// SPDX-License-Identifier: MIT
// Copyright (c) 2026 the maintainers of base62 for Rattle

//! How messages show an argument or a line.

use std::fmt::{self, Display, Formatter};

/// Displays the first 100 bytes, in ASCII without control characters.
pub(crate) struct Escaped<'a>(pub(crate) &'a [u8]);

impl Display for Escaped<'_> {
    fn fmt(&self, f: &mut Formatter) -> fmt::Result {
        let (start, end) = match self.0.len() {
            0 => (self.0, "''"),
            1..=100 => (self.0, ""),
            _ => (&self.0[..100], ".."),
        };
        write!(f, "{}{end}", start.escape_ascii())
    }
}
