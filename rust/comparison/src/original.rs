//! The functions that the crate `base62` 2.2.6 has too, with what its errors and displays show.

use crate::appended;
use crate::input::Input;
use std::collections::hash_map::DefaultHasher;
use std::fmt::{Debug, Display};
use std::hash::{Hash, Hasher};

/// What a value shows in each way to format it.
fn shown(value: impl Display) -> String {
    format!(
        "{value}|{value:30}|{value:<30}|{value:>30}|{value:-^31}|{value:é^9}|{value:.0}|{value:.3}|{value:>9.22}|{value:#}|{value:08}"
    )
}

/// A result, with what its error shows in place of the error, and its hash.
fn with_message<T, E: Display + Debug + Hash>(result: Result<T, E>) -> Result<T, (String, u64)> {
    result.map_err(|error| {
        let mut hasher = DefaultHasher::new();
        error.hash(&mut hasher);
        (shown(&error) + &format!("{error:?}"), hasher.finish())
    })
}

pub fn round(input: &Input) -> usize {
    let (number, text) = (input.number, &input.text[..]);
    let other = &text[text.len() / 2..];
    same! { input, base62, _own = (), ();
        input.buffer(|buf| with_message(encode_bytes(number, buf))),
        input.buffer(|buf| with_message(encode_alternative_bytes(number, buf))),
        encode(number),
        encode_alternative(number),
        appended::<String>(|string| encode_buf(number, string)),
        appended::<String>(|string| encode_alternative_buf(number, string)),
        appended::<Vec<u8>>(|bytes| encode_io(number, bytes).unwrap()),
        appended::<Vec<u8>>(|bytes| encode_alternative_io(number, bytes).unwrap()),
        shown(encode_fmt(number)),
        shown(encode_fmt_alt(number)),
        with_message(decode(text)),
        with_message(decode_alternative(text)),
        decode(text).err().cmp(&decode(other).err()),
    }
}
