//! Values from outside this code.
#![allow(dead_code)]

use base62::{Alphabet, DecodeError};
use std::collections::HashMap;
use std::fs;
use std::sync::LazyLock;

/// The values that the tests of all packages share.
static VALUES: LazyLock<String> = LazyLock::new(|| {
    fs::read_to_string(concat!(env!("CARGO_MANIFEST_DIR"), "/../tests/values.tsv")).unwrap()
});

/// The rows of a kind in tests/values.tsv, whose head tells of them, without the kind.
pub fn rows(kind: &str) -> Vec<Vec<&'static str>> {
    let start = format!("{kind}\t");
    let lines = VALUES.lines().filter_map(|line| line.strip_prefix(&start));
    let rows: Vec<Vec<_>> = lines.map(|line| line.split('\t').collect()).collect();
    assert!(!rows.is_empty(), "no row of {kind}");
    rows
}

/// The bytes of a text there.
pub fn bytes(text: &str) -> Vec<u8> {
    let mut parts = text.split('%');
    let mut bytes = parts.next().unwrap().as_bytes().to_vec();
    for part in parts {
        bytes.push(u8::from_str_radix(&part[..2], 16).unwrap());
        bytes.extend(part[2..].bytes());
    }
    bytes
}

/// The alphabets there, by their names.
pub fn alphabets() -> HashMap<&'static str, Alphabet> {
    let alphabet = |letters| Alphabet::try_from(&bytes(letters)[..]).unwrap();
    let rows = rows("alphabet").into_iter();
    rows.map(|row| (row[0], alphabet(row[1]))).collect()
}

/// Hands each row of a kind to a test: the alphabet that its first field names, and the other fields.
pub fn each(kind: &str, test: impl Fn(&Alphabet, &[&str])) {
    let alphabets = alphabets();
    for row in rows(kind) {
        test(&alphabets[row[0]], &row[1..]);
    }
}

/// The error that the last fields of a row name. None if this machine has no such index.
pub fn decode_error(fields: &[&str]) -> Option<DecodeError> {
    match fields {
        ["empty"] => Some(DecodeError::EmptyInput),
        ["overflow"] => Some(DecodeError::ArithmeticOverflow),
        ["byte", byte, index] => {
            let (byte, index) = (byte.parse().unwrap(), index.parse().ok()?);
            Some(DecodeError::InvalidBase62Byte(byte, index))
        }
        _ => panic!("no error of decoding: {fields:?}"),
    }
}
