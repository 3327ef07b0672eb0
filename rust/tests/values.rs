//! The values of tests/values.tsv, by each call that has them.

mod support;

use base62::*;
use std::fmt::Display;
use std::hash::{BuildHasher, RandomState};
use std::str;
use support::{alphabets, bytes, decode_error, each, rows};

/// Makes a call in an alphabet, and if it is a built-in one, also the call for that one, if there is one. Each time the
/// test gets what the call returns.
macro_rules! calls {
    ($alphabet:ident: $standard:ident $alternative:ident, $with:ident($($argument:expr),*),
     $result:ident => $test:expr) => {
        calls!($alphabet: $standard, $with($($argument),*), $result => $test);
        if *$alphabet == Alphabet::alternative() {
            let $result = base62::$alternative($($argument),*);
            $test;
        }
    };
    ($alphabet:ident: $standard:ident, $with:ident($($argument:expr),*),
     $result:ident => $test:expr) => {
        let $result = base62::$with($alphabet, $($argument),*);
        $test;
        if *$alphabet == Alphabet::standard() {
            let $result = base62::$standard($($argument),*);
            $test;
        }
    };
}

fn number(field: &str) -> u128 {
    field.parse().unwrap()
}

/// The UUID of a number is its bytes, the most significant first.
#[test]
fn decoding() {
    for kind in ["encode", "zeros", "decode_error"] {
        each(kind, |alphabet, row| {
            let error = || decode_error(&row[1..]).unwrap();
            let (text, num, canonical) = match kind {
                "encode" => (row[1], Ok(number(row[0])), Ok(number(row[0]))),
                "zeros" => (row[0], Ok(number(row[1])), Err(CanonicalError::LeadingZero)),
                _ => (row[0], Err(error()), Err(error().into())),
            };
            let (text, uuid) = (bytes(text), num.map(u128::to_be_bytes));
            calls!(alphabet: decode decode_alternative, decode_with(&text),
                result => assert_eq!(result, num));
            calls!(alphabet: decode_uuid, decode_uuid_with(&text), result => assert_eq!(result, uuid));
            let uuid = canonical.map(u128::to_be_bytes);
            calls!(alphabet: decode_canonical, decode_canonical_with(&text),
                result => assert_eq!(result, canonical));
            calls!(alphabet: decode_uuid_canonical, decode_uuid_canonical_with(&text),
                result => assert_eq!(result, uuid));
        });
    }
}

/// A buffer of each size. Only the bytes of the text are written, or none if it does not fit.
#[test]
fn encoding() {
    each("encode", |alphabet, row| {
        let (num, text) = (number(row[0]), bytes(row[1]));
        for size in 0..30 {
            let (mut buf, mut expected) = ([b'?'; 31], [b'?'; 31]);
            let mut written = Err(EncodeError::BufferTooSmall);
            if size >= text.len() {
                expected[1..=text.len()].copy_from_slice(&text);
                written = Ok(text.len());
            }
            calls!(alphabet:
                encode_bytes encode_alternative_bytes, encode_bytes_with(num, &mut buf[1..=size]),
                result => {
                    assert_eq!((result, buf), (written, expected));
                    buf.fill(b'?');
                }
            );
        }
        assert_eq!(digit_count(num), text.len());
    });
}

/// The string in each way that a format pads or truncates it.
fn formats(shown: impl Display) -> String {
    let padded = format!("{shown:30}|{shown:<30}|{shown:>30}|{shown:^30}|{shown:é^31}|{shown:1}");
    let cut = format!("{shown:.0}|{shown:.1}|{shown:.22}|{shown:-^9.3}");
    format!("{shown}|{padded}|{cut}|{shown:#}|{shown:+}|{shown:08}|{shown:0>22}")
}

/// Displays are padded as strings are. A `String` has no spare capacity.
#[test]
fn displays_and_strings() {
    each("encode", |alphabet, row| {
        let (num, text) = (number(row[0]), bytes(row[1]));
        if !alphabet.is_ascii() {
            return;
        }
        let expected = formats(str::from_utf8(&text).unwrap());
        calls!(alphabet: encode_fmt encode_fmt_alt, encode_fmt_with(num),
            result => assert_eq!(formats(result), expected));
        #[cfg(feature = "alloc")]
        {
            let check = |encoded: String| {
                assert_eq!(encoded.as_bytes(), text);
                assert_eq!(encoded.capacity(), text.len());
            };
            calls!(alphabet: encode encode_alternative, encode_with(num), result => check(result));
            let uuid = num.to_be_bytes();
            calls!(alphabet: encode_uuid, encode_uuid_with(uuid), result => check(result));
        }
    });
}

#[cfg(feature = "std")]
#[test]
fn writers() {
    use std::io::{ErrorKind, Result, Write};

    /// Stores what `write_all` gets, and has the error that it returns. There are no other calls.
    struct Writer(Vec<Vec<u8>>, Option<ErrorKind>);

    impl Write for Writer {
        fn write_all(&mut self, bytes: &[u8]) -> Result<()> {
            self.0.push(bytes.to_vec());
            self.1.map_or(Ok(()), |kind| Err(kind.into()))
        }

        fn write(&mut self, _: &[u8]) -> Result<usize> {
            unreachable!()
        }

        fn flush(&mut self) -> Result<()> {
            unreachable!()
        }
    }

    each("encode", |alphabet, row| {
        for error in [None, Some(ErrorKind::BrokenPipe)] {
            let (num, mut writer) = (number(row[0]), Writer(Vec::new(), error));
            calls!(alphabet: encode_io encode_alternative_io, encode_io_with(num, &mut writer),
                result => {
                    assert_eq!(result.err().map(|error| error.kind()), error);
                    assert_eq!(std::mem::take(&mut writer.0), [bytes(row[1])]);
                }
            );
        }
    });
}

type Filled<'a> = Result<&'a [u8], EncodeError>;

/// If the buffer is too small, it is left unchanged.
#[test]
fn fixed_widths() {
    for kind in ["fixed", "too_narrow"] {
        each(kind, |alphabet, row| {
            let (num, width) = (number(row[0]), row[1].parse().unwrap());
            let text = row.get(2).map(|text| bytes(text));
            let expected = text.as_deref().ok_or(EncodeError::BufferTooSmall);
            let check = |encode: &dyn Fn(&mut [u8]) -> Filled<'_>| {
                let mut buf = vec![b'?'; width];
                let unchanged = buf.clone();
                assert_eq!(encode(&mut buf), expected);
                assert_eq!(buf, expected.unwrap_or(&unchanged));
            };
            check(&|buf| encode_fixed_with(alphabet, num, buf).map(|()| &*buf));
            if alphabet.is_ascii() {
                check(&|buf| encode_fixed_str_with(alphabet, num, buf).map(str::as_bytes));
            }
            if *alphabet == Alphabet::standard() {
                check(&|buf| encode_fixed(num, buf).map(|()| &*buf));
                check(&|buf| encode_fixed_str(num, buf).map(str::as_bytes));
                if width == 22 {
                    assert_eq!(Ok(&encode_key(num)[..]), expected);
                    check(&|buf| Ok(encode_key_str(num, buf.try_into().unwrap()).as_bytes()));
                }
            }
        });
    }
}

#[test]
fn decoding_at_a_width() {
    each("decode_fixed", |alphabet, row| {
        // Not each machine has each width.
        let Ok(width) = row[0].parse() else { return };
        let text = bytes(row[1]);
        let expected = match row[2..] {
            ["number", num] => Ok(number(num)),
            ["length"] => Err(FixedError::WrongLength),
            _ => Err(decode_error(&row[2..]).unwrap().into()),
        };
        calls!(alphabet: decode_fixed, decode_fixed_with(&text, width),
            result => assert_eq!(result, expected));
        if width == 22 && *alphabet == Alphabet::standard() {
            assert_eq!(decode_key(&text), expected);
        }
    });
}

#[test]
fn ranges() {
    each("range", |alphabet, row| {
        // Not each machine has each width.
        let Ok(width) = row[0].parse() else { return };
        let prefix = bytes(row[1]);
        let expected = match row[2..] {
            ["numbers", least, greatest] => Ok(Some(number(least)..=number(greatest))),
            ["none"] => Ok(None),
            _ => Err(decode_error(&row[2..]).unwrap()),
        };
        calls!(alphabet: prefix_range, prefix_range_with(&prefix, width),
            result => assert_eq!(result, expected));
        if width == 22 && *alphabet == Alphabet::standard() {
            assert_eq!(key_range(&prefix), expected);
        }
    });
}

#[test]
fn strings_of_uuids() {
    for row in rows("uuid_string") {
        let found = uuid_from_string(bytes(row[0]));
        if row[1] == "none" {
            assert_eq!(found, Err(UuidError::InvalidUuid), "{}", row[0]);
        } else {
            let number = u128::from_str_radix(&row[1].replace('-', ""), 16).unwrap();
            let uuid = number.to_be_bytes();
            assert_eq!(found, Ok(uuid), "{}", row[0]);
            assert_eq!(&uuid_to_string(uuid)[..], row[1].as_bytes());
            assert_eq!(uuid_to_str(uuid, &mut [0; 36]), row[1]);
        }
    }
}

#[test]
fn messages() {
    let message_of = |error: DecodeError| {
        let text = error.to_string();
        assert_eq!(CanonicalError::Decode(error).to_string(), text);
        assert_eq!(FixedError::Decode(error).to_string(), text);
        text
    };
    let overflow = message_of(DecodeError::ArithmeticOverflow);
    assert_eq!(overflow, "Decoded number cannot fit into a `u128`");
    for row in rows("message") {
        let text = match row[1..] {
            // There is no such error, or its text is that of the crate `base62`.
            ["none" | "wide" | "overflow"] => continue,
            ["length"] => FixedError::WrongLength.to_string(),
            ["uuid"] => UuidError::InvalidUuid.to_string(),
            ["zero"] => CanonicalError::LeadingZero.to_string(),
            ["narrow"] => EncodeError::BufferTooSmall.to_string(),
            ["repeated", byte, index] => {
                AlphabetError::Repeated(byte.parse().unwrap(), index.parse().unwrap()).to_string()
            }
            _ => match decode_error(&row[1..]) {
                Some(error) => message_of(error),
                None => continue,
            },
        };
        assert_eq!(text.as_bytes(), bytes(row[0]));
    }
}

#[test]
fn alphabet() {
    let hasher = RandomState::new();
    for row in rows("alphabet") {
        let letters: [u8; 62] = bytes(row[1]).try_into().unwrap();
        let alphabet = Alphabet::new(letters).unwrap();
        assert_eq!(alphabet.characters(), &letters);
        assert_eq!(alphabet.as_ref(), letters);
        assert_eq!(Alphabet::try_from(letters), Ok(alphabet));
        assert_eq!(Alphabet::try_from(&letters), Ok(alphabet));
        assert_eq!(hasher.hash_one(alphabet), hasher.hash_one(letters));
        if let Ok(letters) = str::from_utf8(&letters) {
            assert_eq!(letters.parse(), Ok(alphabet));
            assert_eq!(Alphabet::try_from(letters), Ok(alphabet));
        }
        assert_eq!(alphabet.is_ascii(), row[2] == "1");
        assert_eq!(alphabet.is_ascending(), row[3] == "1");
    }
    // Blanks at the ends are characters too.
    let letters = " 123456789ABCDEFGHIJKLMNOPQRSTUVWXYZabcdefghijklmnopqrstuvwxy\n";
    let alphabet: Alphabet = letters.parse().unwrap();
    assert_eq!(alphabet.as_ref(), letters.as_bytes());
    let alphabets = alphabets();
    assert_eq!(alphabets["standard"], Alphabet::standard());
    assert_eq!(alphabets["standard"], Alphabet::default());
    assert_eq!(alphabets["alternative"], Alphabet::alternative());
}

#[test]
fn no_alphabet() {
    for row in rows("repeated") {
        let letters = bytes(row[0]);
        let (byte, index) = (row[1].parse().unwrap(), row[2].parse().unwrap());
        let error = AlphabetError::Repeated(byte, index);
        let of_slice = ParseAlphabetError::Repeated(byte, index);
        assert_eq!(Alphabet::try_from(&letters[..]), Err(of_slice));
        assert_eq!(of_slice.to_string(), error.to_string());
        let letters: [u8; 62] = letters.try_into().unwrap();
        assert_eq!(Alphabet::new(letters), Err(error));
        assert_eq!(Alphabet::try_from(&letters), Err(error));
    }
    for letters in ["", "a", &"a".repeat(61), &"a".repeat(63), &"é".repeat(62)] {
        let error = ParseAlphabetError::InvalidLength(letters.len());
        assert_eq!(Alphabet::try_from(letters.as_bytes()), Err(error));
        assert_eq!(Alphabet::try_from(letters), Err(error));
        assert_eq!(letters.parse::<Alphabet>(), Err(error));
        let message = format!("Alphabet has {} bytes instead of 62", letters.len());
        assert_eq!(error.to_string(), message);
    }
}
