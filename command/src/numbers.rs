// SPDX-License-Identifier: MIT
// Copyright (c) 2026 the maintainers of base62 for Rattle

//! Numbers as they are read and printed.

use crate::fault::ToolFault;
use crate::memory::Bytes;
use std::io::Write;

/// Appends bytes.
#[inline]
pub(crate) fn append(bytes: &[u8], out: &mut Bytes) -> Result<(), ToolFault> {
    out.write_all(bytes).map_err(|_| ToolFault::Memory)
}

/// The decimal digits of each number below 100.
const TWO_DIGITS: [[u8; 2]; 100] = {
    let (mut all, mut number) = ([[0; 2]; 100], 0);
    while number < 100 {
        all[number] = [b'0' + number as u8 / 10, b'0' + number as u8 % 10];
        number += 1;
    }
    all
};

/// Appends a number in decimal. Of a `u128`, each division takes longer.
pub(crate) fn append_decimal(number: u128, out: &mut Bytes) -> Result<(), ToolFault> {
    let Ok(mut left) = u64::try_from(number) else {
        return write!(out, "{number}").or(Err(ToolFault::Memory));
    };
    // The last digits come first. A `u64` has at most twenty.
    let (mut digits, mut start) = ([0; 20], 20);
    while left >= 100 {
        start -= 2;
        [digits[start], digits[start + 1]] = TWO_DIGITS[(left % 100) as usize];
        left /= 100;
    }
    start -= 2;
    [digits[start], digits[start + 1]] = TWO_DIGITS[left as usize];
    append(&digits[start + usize::from(left < 10)..], out)
}

/// The input without the spaces and tabs around it.
pub(crate) fn trim_blanks(mut input: &[u8]) -> &[u8] {
    while let [b' ' | b'\t', rest @ ..] | [rest @ .., b' ' | b'\t'] = input {
        input = rest;
    }
    input
}

/// The number that decimal digits represent, if it is below 2^128. Products of 64 bits take less time, and nineteen
/// digits need no more: so it takes less than the proved `number_of` of `base62_cli`.
pub(crate) fn parse_decimal(digits: &[u8]) -> Option<u128> {
    let digit = |byte: &u8| char::from(*byte).to_digit(10);
    let (first, rest) = digits.split_at(digits.len().min(19));
    let first = first.iter().try_fold(0_u64, |number, byte| {
        Some(number * 10 + u64::from(digit(byte)?))
    });
    let number = rest.iter().try_fold(u128::from(first?), |number, byte| {
        number.checked_mul(10)?.checked_add(digit(byte)?.into())
    });
    number.filter(|_| !digits.is_empty())
}

/// The number that 1 to 32 hexadecimal digits represent, in either case, with or without `0x`.
pub(crate) fn parse_hex(input: &[u8]) -> Option<u128> {
    let digits = input.strip_prefix(b"0x").or(input.strip_prefix(b"0X"));
    let digits = digits.unwrap_or(input);
    if !matches!(digits.len(), 1..=32) {
        return None;
    }
    digits.iter().try_fold(0, |number, byte| {
        Some((number << 4) | u128::from(char::from(*byte).to_digit(16)?))
    })
}
