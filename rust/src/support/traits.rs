// SPDX-License-Identifier: MIT
// Copyright (c) 2026 the maintainers of base62 for Rattle

//! Traits of Rust that the source does not implement.

use crate::text::Text;
use crate::{Alphabet, AlphabetError};
use core::error::Error;
use core::fmt;
use core::hash::{Hash, Hasher};
use core::str::FromStr;

/// An error that can be returned when creating an alphabet from a slice or a string.
#[derive(Clone, Copy, Debug, PartialEq, Eq, PartialOrd, Ord, Hash)]
pub enum ParseAlphabetError {
    /// The length in bytes is this one, and not 62.
    InvalidLength(usize),
    /// A byte is repeated, as in [`AlphabetError::Repeated`].
    Repeated(u8, usize),
}

impl fmt::Display for ParseAlphabetError {
    fn fmt(&self, f: &mut fmt::Formatter<'_>) -> fmt::Result {
        match *self {
            Self::InvalidLength(length) => write!(f, "Alphabet has {length} bytes instead of 62"),
            Self::Repeated(byte, index) => AlphabetError::Repeated(byte, index).fmt(f),
        }
    }
}

impl Error for ParseAlphabetError {}

impl From<AlphabetError> for ParseAlphabetError {
    fn from(error: AlphabetError) -> Self {
        let AlphabetError::Repeated(byte, index) = error;
        Self::Repeated(byte, index)
    }
}

/// Returns the standard alphabet.
impl Default for Alphabet {
    fn default() -> Self {
        Self::standard()
    }
}

impl Hash for Alphabet {
    fn hash<H: Hasher>(&self, state: &mut H) {
        self.characters().hash(state);
    }
}

/// Returns the characters, like [`Alphabet::characters`].
impl AsRef<[u8]> for Alphabet {
    fn as_ref(&self) -> &[u8] {
        self.characters()
    }
}

/// Like [`Alphabet::new`].
impl TryFrom<[u8; 62]> for Alphabet {
    type Error = AlphabetError;

    fn try_from(characters: [u8; 62]) -> Result<Self, AlphabetError> {
        Alphabet::new(characters)
    }
}

/// Like [`Alphabet::new`].
impl TryFrom<&[u8; 62]> for Alphabet {
    type Error = AlphabetError;

    fn try_from(characters: &[u8; 62]) -> Result<Self, AlphabetError> {
        Alphabet::new(*characters)
    }
}

/// Like [`Alphabet::new`], but for a slice, such as characters from a configuration.
impl TryFrom<&[u8]> for Alphabet {
    type Error = ParseAlphabetError;

    fn try_from(characters: &[u8]) -> Result<Self, ParseAlphabetError> {
        let characters = characters
            .try_into()
            .map_err(|_| ParseAlphabetError::InvalidLength(characters.len()))?;
        Ok(Alphabet::new(characters)?)
    }
}

/// Like [`Alphabet::new`], but for the bytes of a string.
impl FromStr for Alphabet {
    type Err = ParseAlphabetError;

    fn from_str(characters: &str) -> Result<Self, ParseAlphabetError> {
        characters.as_bytes().try_into()
    }
}

/// Like [`Alphabet::new`], but for the bytes of a string.
impl TryFrom<&str> for Alphabet {
    type Error = ParseAlphabetError;

    fn try_from(characters: &str) -> Result<Self, ParseAlphabetError> {
        characters.parse()
    }
}

/// Like that of a `str`.
impl fmt::Debug for Text {
    fn fmt(&self, f: &mut fmt::Formatter<'_>) -> fmt::Result {
        self.as_str().fmt(f)
    }
}
