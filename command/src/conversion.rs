// SPDX-License-Identifier: MIT
// Copyright (c) 2026 the maintainers of base62 for Rattle

//! The result of a subcommand for one input.

use crate::arguments::{Notation, Settings};
use crate::fault::ToolFault::{self, Memory};
use crate::memory::Bytes;
use crate::numbers::{append, append_decimal, parse_decimal, parse_hex, trim_blanks};
use ConversionError::{Decode, Failure, Invalid, TooNarrow, WrongLength};
use Notation::{Hexadecimal, Uuid};
use base62::{CanonicalError, DecodeError, FixedError, MAX_DIGITS};
use base62::{decode_canonical_with, decode_fixed_with, decode_with, uuid_from_string};
use std::fmt::{self, Display, Formatter};
use std::io::Write;

type Conversion = Result<(), ConversionError>;

/// Appends the result for an input. If the input is invalid, it appends nothing.
pub(crate) type Converter = fn(&Settings, &[u8], &mut Bytes) -> Conversion;

const OVERFLOW: &str = "Encoded input represents 2^128 or more, or has more than 22 characters";

/// Why an input has no result: a failure of the program, or what is wrong with the input.
pub(crate) enum ConversionError {
    Failure(ToolFault),
    Decode(CanonicalError),
    WrongLength { length: usize, width: usize },
    TooNarrow { count: usize, width: usize },
    Invalid(&'static str),
}

impl Display for ConversionError {
    fn fmt(&self, f: &mut Formatter) -> fmt::Result {
        match self {
            Failure(failure) => failure.fmt(f),
            Decode(CanonicalError::Decode(DecodeError::ArithmeticOverflow)) => OVERFLOW.fmt(f),
            Decode(error) => error.fmt(f),
            WrongLength { length, width } => {
                let s = if *length == 1 { "" } else { "s" };
                write!(f, "Encoded input has {length} byte{s}, not {width}")
            }
            TooNarrow { count, width } => {
                write!(f, "Number needs {count} characters, ")?;
                write!(f, "and the width is {width}")
            }
            Invalid(error) => error.fmt(f),
        }
    }
}

pub(crate) fn encode(settings: &Settings, input: &[u8], out: &mut Bytes) -> Conversion {
    let digits = trim_blanks(input);
    let uuid = || uuid_from_string(digits).ok().map(u128::from_be_bytes);
    let (number, error) = match settings.notation {
        None => (parse_decimal(digits), "Not a decimal number below 2^128"),
        Some(Hexadecimal) => (parse_hex(digits), "Not 1 to 32 hexadecimal digits"),
        Some(Uuid) => (uuid(), "Not a UUID"),
    };
    let number = number.ok_or(Invalid(error))?;
    let (start, width) = (out.0.len(), settings.width.unwrap_or(MAX_DIGITS));
    out.reserve(width).or(Err(Failure(Memory)))?;
    out.0.resize(start + width, 0);
    let (alphabet, places) = (&settings.alphabet, &mut out.0[start..]);
    let length = match settings.width {
        Some(_) => base62::encode_fixed_with(alphabet, number, places).map(|()| width),
        None => base62::encode_bytes_with(alphabet, number, places),
    };
    out.0.truncate(start + length.unwrap_or_default());
    let count = base62::digit_count(number);
    length.map(|_| ()).or(Err(TooNarrow { count, width }))
}

pub(crate) fn decode(settings: &Settings, string: &[u8], out: &mut Bytes) -> Conversion {
    let (alphabet, length) = (&settings.alphabet, string.len());
    let number = match settings.width {
        Some(width) => decode_fixed_with(alphabet, string, width).map_err(|error| match error {
            FixedError::Decode(error) => Decode(error.into()),
            FixedError::WrongLength => WrongLength { length, width },
        }),
        None if settings.needs_canonical => decode_canonical_with(alphabet, string).map_err(Decode),
        None => decode_with(alphabet, string).map_err(|error| Decode(error.into())),
    }?;
    match settings.notation {
        None => append_decimal(number, out),
        Some(Hexadecimal) => write!(out, "{number:x}").or(Err(Memory)),
        Some(Uuid) => append(&base62::uuid_to_string(number.to_be_bytes()), out),
    }
    .map_err(Failure)
}

pub(crate) fn range(settings: &Settings, prefix: &[u8], out: &mut Bytes) -> Conversion {
    let width = settings.width.unwrap_or(MAX_DIGITS);
    let range = base62::prefix_range_with(&settings.alphabet, prefix, width);
    let none = Invalid(match settings.width {
        Some(_) => "No string of this width begins with the prefix",
        None => "No string of 22 characters begins with the prefix; -w sets the width",
    });
    let range = range.map_err(|error| Decode(error.into()))?.ok_or(none)?;
    let (least, greatest) = range.into_inner();
    write!(out, "{least} {greatest}").or(Err(Failure(Memory)))
}
