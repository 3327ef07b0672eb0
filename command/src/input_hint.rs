// SPDX-License-Identifier: MIT
// Copyright (c) 2026 the maintainers of base62 for Rattle

//! Hints about invalid inputs.

use crate::arguments::{Notation, Settings};
use crate::conversion::ConversionError;

/// What an input of a subcommand may be instead, by its form alone. Nothing if that is unknown.
pub(crate) fn hint_for(
    subcommand: &str,
    settings: &Settings,
    input: &[u8],
    is_operand: bool,
    error: &ConversionError,
) -> &'static str {
    let text = std::str::from_utf8(input).unwrap_or("");
    let is_uuid = base62::uuid_from_string(input).is_ok();
    let for_decimal = hint_for_decimal(text.trim_matches([' ', '\t']));
    // Nothing looks whether there is such a file.
    let has_letters = text.contains(char::is_alphabetic);
    let is_file =
        is_operand && (text.contains('/') || text.contains('.') && has_letters || text == "-");
    match (subcommand, &settings.notation) {
        _ if matches!(error, ConversionError::TooNarrow { .. }) => "",
        ("encode", None | Some(Notation::Hexadecimal)) if is_uuid => ": try --uuid",
        ("decode" | "range", _) if is_uuid => ": try base62 encode --uuid",
        ("encode", None) if !for_decimal.is_empty() => for_decimal,
        ("encode", _) if is_file => ": try base62 encode <FILE",
        ("decode", _) if is_file => ": try base62 decode <FILE",
        _ if is_file => ": try base62 range <FILE",
        _ => "",
    }
}

fn hint_for_decimal(text: &str) -> &'static str {
    let consists_of = |is_part: fn(char) -> bool| !text.is_empty() && text.chars().all(is_part);
    let digits = text.strip_prefix("0x").or(text.strip_prefix("0X"));
    let is_hexadecimal = |digits: &str| digits.bytes().all(|digit| digit.is_ascii_hexdigit());
    if digits.is_some_and(|digits| !digits.is_empty() && is_hexadecimal(digits)) {
        ": try --hex"
    } else if text.len() > 1
        && text.starts_with('-')
        && consists_of(|c| matches!(c, '0'..='9' | '-'))
    {
        ": numbers are not negative"
    } else if consists_of(|c| matches!(c, '0'..='9' | ',' | '_' | '\''))
        && !consists_of(|c| c.is_ascii_digit())
    {
        ": try the digits alone"
    } else if consists_of(char::is_numeric) && !text.is_ascii() {
        ": try the digits 0 to 9"
    } else {
        ""
    }
}
