// SPDX-License-Identifier: MIT
// Copyright (c) 2026 the maintainers of base62 for Rattle

//! What the contracts of the source require, and the `unsafe` of the source.
//!
//! All `unsafe` of the crate is here. With the feature `checked` there is none.

/// A precondition of the function, at the start of its body. In the source, each caller is proved to meet it; this crate
/// is a tested translation of the source. A debug build asserts it. In a release build the compiler assumes it.
macro_rules! requires {
    ($clause:expr) => {
        debug_assert!($clause);
        // SAFETY: each call in the source is proved to meet the precondition.
        #[cfg(not(feature = "checked"))]
        unsafe {
            core::hint::assert_unchecked($clause)
        };
    };
}

/// A string of bytes that are ASCII. The source has the same `unsafe`, and proves it.
macro_rules! proved {
    ($kind:ident::from_utf8($bytes:expr)) => {{
        debug_assert!($bytes.is_ascii());
        // SAFETY: the bytes are proved to be ASCII in the source.
        #[cfg(not(feature = "checked"))]
        let text = unsafe { $kind::from_utf8_unchecked($bytes) };
        #[cfg(feature = "checked")]
        let text = $kind::from_utf8($bytes).unwrap();
        text
    }};
}

/// If the spare capacity is enough for the text of any number, writes the text in place, and returns. In Rattle the bytes
/// of a `String` cannot be borrowed mutably, so the code after this copies the text.
#[cfg(feature = "alloc")]
macro_rules! return_if_written_in_place {
    ($tables:ident, $num:ident, $buf:ident) => {
        #[cfg(not(feature = "checked"))]
        if $buf.capacity() - $buf.len() >= crate::MAX_DIGITS {
            let n: u128 = $num.into();
            let (at, len) = ($buf.len(), crate::digit_count(n));
            // SAFETY: the string stays UTF-8. What is appended is the bytes 0, and then letters, which the function's
            // clause `ascii` in the source requires to be ASCII.
            let bytes = unsafe { $buf.as_mut_vec() };
            bytes.extend_from_slice(&[0; crate::MAX_DIGITS]);
            crate::codec::encoder::write_number($tables, n, len, &mut bytes[at..]);
            bytes.truncate(at + len);
            return;
        }
    };
}

/// Appends some of the zeros, which the text overwrites. In the source a copy of varying length appends them, which is a
/// call. These are a few stores.
#[cfg(feature = "alloc")]
macro_rules! append_zeros {
    ($bytes:ident, $len:ident) => {
        #[cfg(feature = "checked")]
        $bytes.resize($len, 0);
        #[cfg(not(feature = "checked"))]
        {
            // In the source this length is proved to be one of a text.
            requires!($len <= crate::MAX_DIGITS);
            let places = &mut $bytes.spare_capacity_mut()[..$len];
            crate::support::contract::fill(places, core::mem::MaybeUninit::new(0));
            // SAFETY: the capacity is enough, and `fill` has written each of these bytes.
            unsafe { $bytes.set_len($bytes.len() + $len) };
        }
    };
}

/// Writes a value to 1 to 24 places, by stores of fixed sizes that may overlap. It branches where the encoder does, so
/// that the processor mispredicts once.
#[cfg(all(feature = "alloc", not(feature = "checked")))]
#[inline(always)]
pub(crate) fn fill<T: Copy>(places: &mut [T], value: T) {
    let len = places.len();
    if len > 9 {
        for start in [0, (len - 8).min(8), len - 8] {
            *places[start..].first_chunk_mut().unwrap() = [value; 8];
        }
    } else if len > 4 {
        for start in [0, 1, len - 4] {
            *places[start..].first_chunk_mut().unwrap() = [value; 4];
        }
    } else {
        for start in [0, len / 4, len / 2, len - 1] {
            places[start] = value;
        }
    }
}

/// Asserts the precondition of a public call, since its callers in Rust do not prove it.
#[inline(always)]
#[track_caller]
pub(crate) fn assert_ascii(alphabet: &crate::Alphabet) {
    assert!(
        alphabet.is_ascii(),
        "the alphabet has a non-ASCII character"
    );
}

#[cfg(test)]
mod tests {
    #[cfg(all(feature = "alloc", not(feature = "checked")))]
    #[test]
    fn each_place_is_filled() {
        for len in 1..=24 {
            let mut places = [1; 26];
            super::fill(&mut places[1..=len], 0);
            assert_eq!((places[0], &places[1..=len]), (1, &[0; 24][..len]));
            assert_eq!(places[len + 1..], [1; 25][len..]);
        }
    }

    // In a release build a false precondition is undefined behaviour.
    #[cfg(debug_assertions)]
    #[test]
    #[should_panic(expected = "assertion failed: k <= 10")]
    fn a_false_clause_of_the_source_panics() {
        crate::powers::power(11);
    }

    #[cfg(debug_assertions)]
    #[test]
    #[should_panic(expected = "assertion failed: bytes.is_ascii()")]
    fn a_text_that_is_not_ascii_panics() {
        fn text(bytes: &[u8]) -> &str {
            use core::str;
            proved!(str::from_utf8(bytes))
        }
        assert_eq!(text(b"LZ"), "LZ");
        text("é".as_bytes());
    }
}
