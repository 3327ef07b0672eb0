//! The signatures and bounds of the crate `base62` 2.2.6, constants, and the traits of the types.

use base62::*;
use std::error::Error;
use std::fmt::{Debug, Display};
use std::hash::Hash;

/// Each call takes what the bounds of that crate let through, and returns its types.
#[cfg(feature = "std")]
#[allow(dead_code)]
fn calls_of_the_crate<T: Into<u128>, A: AsRef<[u8]>, W: std::io::Write + ?Sized>(num: fn() -> T) {
    let _: fn(T, &mut [u8]) -> Result<usize, EncodeError> = encode_bytes::<T>;
    let _: fn(T, &mut [u8]) -> Result<usize, EncodeError> = encode_alternative_bytes::<T>;
    let _: fn(A) -> Result<u128, DecodeError> = decode::<A>;
    let _: fn(A) -> Result<u128, DecodeError> = decode_alternative::<A>;
    let _: &dyn Display = &encode_fmt(num());
    let _: &dyn Display = &encode_fmt_alt(num());
    let _: fn(T) -> String = encode::<T>;
    let _: fn(T) -> String = encode_alternative::<T>;
    let _: fn(T, &mut String) = encode_buf::<T>;
    let _: fn(T, &mut String) = encode_alternative_buf::<T>;
    let _: fn(T, &mut W) -> std::io::Result<()> = encode_io::<T, W>;
    let _: fn(T, &mut W) -> std::io::Result<()> = encode_alternative_io::<T, W>;
}

#[test]
fn types() {
    fn alphabet<T: Copy + Debug + Default + Eq + Hash + Send + Sync + Unpin>() {}
    alphabet::<Alphabet>();
    fn shown(value: impl Copy + Debug + Display + Send + Sync + 'static) -> String {
        format!("{value:?}")
    }
    assert!(shown(encode_fmt(1337_u16)).contains("\"LZ\""));
    assert!(shown(encode_fmt_alt(1337_u16)).contains("\"lz\""));
    assert!(shown(encode_fmt_with(&OWN, 1337_u16)).contains("\"lz\""));
}

/// What is called here can be called in a constant.
const OWN: Alphabet = Alphabet::from_static(*Alphabet::alternative().characters());
const _: [usize; MAX_DIGITS] = [0; digit_count(u128::MAX)];
const _: bool = OWN.is_ascending() || OWN.is_ascii() || Alphabet::standard().is_ascii();
const _: Result<Alphabet, AlphabetError> = Alphabet::new([7; 62]);

#[test]
fn alphabets_are_shown_by_their_letters() {
    let shown = "Alphabet(b\"0123456789ABCDEFGHIJKLMNOPQRSTUVWXYZabcdefghijklmnopqrstuvwxyz\")";
    assert_eq!(format!("{:?}", Alphabet::standard()), shown);
    let mut letters = std::array::from_fn(|place| 194 + place as u8);
    letters[..4].copy_from_slice(b"\"\\\n\0");
    let shown = format!("{:?}", Alphabet::new(letters).unwrap());
    assert!(shown.starts_with(r#"Alphabet(b"\"\\\n\x00\xc6\xc7"#));
    assert!(shown.ends_with(r#"\xfe\xff")"#));
}

#[test]
fn errors_have_traits_and_ignore_formats_as_in_base62_2_2_6() {
    fn check<T: Copy + Debug + Eq + Hash + Ord + Error + Send + Sync + Unpin>(error: T) {
        assert_eq!(format!("{error:>100}{error:.3}"), format!("{error}{error}"));
    }
    check(DecodeError::InvalidBase62Byte(b'-', 2));
    check(DecodeError::EmptyInput);
    check(CanonicalError::LeadingZero);
    check(FixedError::WrongLength);
    check(EncodeError::BufferTooSmall);
    check(UuidError::InvalidUuid);
    check(AlphabetError::Repeated(b'-', 2));
    check(ParseAlphabetError::InvalidLength(2));
}

#[test]
fn variants() {
    // Callers match on all of them, and in this order they are sorted.
    match decode("").unwrap_err() {
        DecodeError::ArithmeticOverflow => (),
        DecodeError::EmptyInput => (),
        DecodeError::InvalidBase62Byte(_, _) => (),
    }
    match decode_key("").unwrap_err() {
        FixedError::WrongLength => (),
        FixedError::Decode(_) => (),
    }
    let EncodeError::BufferTooSmall = EncodeError::BufferTooSmall;
    let UuidError::InvalidUuid = UuidError::InvalidUuid;
    let AlphabetError::Repeated(_, _) = AlphabetError::Repeated(0, 1);
    let invalid = DecodeError::InvalidBase62Byte(45, 2);
    assert!(DecodeError::ArithmeticOverflow < DecodeError::EmptyInput);
    assert!(DecodeError::EmptyInput < invalid);
    assert!(FixedError::WrongLength < DecodeError::ArithmeticOverflow.into());
    assert!(ParseAlphabetError::InvalidLength(63) < ParseAlphabetError::Repeated(0, 1));
    assert_eq!(format!("{invalid:?}"), "InvalidBase62Byte(45, 2)");
}
