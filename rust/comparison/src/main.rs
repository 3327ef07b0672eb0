//! Compares this crate with the C library: `comparison CALLS SEED`. Both get the same calls. With the feature `original`,
//! the crate `base62` 2.2.6 gets those that it has too.

/// Makes each call by the names of this crate and of another module, with the alphabet of each for `$own`, as `equal` does.
macro_rules! same {
    ($input:ident, $there:ident, $own:ident = $ours:expr, $theirs:expr; $($call:expr,)*) => {
        equal! { $input; $(
            { use proved::*; let $own = $ours; $call } => { use $there::*; let $own = $theirs; $call },
        )* }
    };
}

/// Compares what calls return with what they have to, and ends the program at a difference. How many calls there are.
macro_rules! equal {
    ($input:ident; $($call:expr => $expected:expr,)*) => {
        0 $(+ {
            assert_eq!($call, $expected, "{} of {:?}", stringify!($call), $input);
            1
        })*
    };
}

mod input;
#[cfg(feature = "original")]
mod original;

use input::{Input, Random};
use proved::*;
use std::env;
use std::fmt::Display;

/// A result with the message of an error. That of an overflow names a type of Rust.
fn shown<T>(result: Result<T, impl Display>) -> Result<T, String> {
    let message = |error: String| error.replace("cannot fit into a `u128`", "is 2^128 or more");
    result.map_err(|error| message(error.to_string()))
}

/// What a call appends to a string or a writer.
fn appended<T: Default>(call: impl FnOnce(&mut T)) -> T {
    let mut target = T::default();
    call(&mut target);
    target
}

/// The string that a call writes to a buffer.
fn string_of(call: impl FnOnce(&mut [u8]) -> Result<usize, EncodeError>) -> Vec<u8> {
    let mut buf = [0; MAX_DIGITS];
    let length = call(&mut buf).unwrap();
    buf[..length].to_vec()
}

#[allow(unused_variables)] // Few calls take `own`.
fn calls_of_number(input: &Input, ours: &Alphabet, theirs: &library::Alphabet) -> usize {
    let number = input.number;
    same! { input, library, own = ours, theirs;
        input.buffer(|buf| encode_bytes(number, buf)),
        input.buffer(|buf| encode_alternative_bytes(number, buf)),
        input.buffer(|buf| encode_bytes_with(own, number, buf)),
        encode_key(number),
        shown(decode_key(&encode_key(number))),
        digit_count(number),
        uuid_to_string(number.to_be_bytes()),
        shown(uuid_from_string(&input.uuid_string[..])),
    }
}

/// `custom` is the number over the alphabet.
fn strings(input: &Input, ours: &Alphabet, theirs: &library::Alphabet, custom: &[u8]) -> usize {
    let (number, uuid) = (input.number, input.number.to_be_bytes());
    let standard = string_of(|buf| library::encode_bytes(number, buf));
    let alternative = string_of(|buf| library::encode_alternative_bytes(number, buf));
    let fixed = input.buffer(|places| library::encode_fixed(number, places));
    let custom_fixed = input.buffer(|places| library::encode_fixed_with(theirs, number, places));
    let calls = equal! { input;
        encode(number).as_bytes() => standard,
        encode_alternative(number).as_bytes() => alternative,
        encode_uuid(uuid).as_bytes() => standard,
        appended::<String>(|string| encode_buf(number, string)).as_bytes() => standard,
        appended::<String>(|string| encode_alternative_buf(number, string)).as_bytes() => alternative,
        appended::<Vec<u8>>(|bytes| encode_io(number, bytes).unwrap()) => standard,
        appended::<Vec<u8>>(|bytes| encode_alternative_io(number, bytes).unwrap()) => alternative,
        encode_fmt(number).to_string().as_bytes() => standard,
        encode_fmt_alt(number).to_string().as_bytes() => alternative,
        encode_key_str(number, &mut [0; 22]).as_bytes() => library::encode_key(number),
        uuid_to_str(uuid, &mut [0; 36]).as_bytes() => library::uuid_to_string(uuid),
        input.buffer(|places| encode_fixed_str(number, places).map(str::len)) => fixed,
        input.buffer(|places| encode_fixed(number, places).map(|()| places.len())) => fixed,
        input.buffer(|places| encode_fixed_with(ours, number, places).map(|()| places.len())) => custom_fixed,
    };
    if !ours.is_ascii() {
        return calls;
    }
    calls
        + equal! { input;
            encode_with(ours, number).as_bytes() => custom,
            encode_uuid_with(ours, uuid).as_bytes() => custom,
            appended::<String>(|string| encode_buf_with(ours, number, string)).as_bytes() => custom,
            appended::<Vec<u8>>(|bytes| encode_io_with(ours, number, bytes).unwrap()) => custom,
            encode_fmt_with(ours, number).to_string().as_bytes() => custom,
            input.buffer(|places| encode_fixed_str_with(ours, number, places).map(str::len)) => custom_fixed,
        }
}

#[allow(unused_variables)] // Few calls take `own`.
fn calls_of_text(input: &Input, ours: &Alphabet, theirs: &library::Alphabet, text: &[u8]) -> usize {
    let width = input.width;
    let calls = same! { input, library, own = ours, theirs;
        shown(decode(text)),
        shown(decode_alternative(text)),
        shown(decode_with(own, text)),
        shown(decode_canonical(text)),
        shown(decode_canonical_with(own, text)),
        shown(decode_fixed(text, width)),
        shown(decode_fixed(text, text.len())),
        shown(decode_fixed_with(own, text, width)),
        shown(decode_fixed_with(own, text, text.len())),
        shown(decode_key(text)),
        shown(key_range(text)),
        shown(prefix_range(text, width)),
        shown(prefix_range_with(own, text, width)),
    };
    calls
        + equal! { input;
            shown(decode_uuid(text)) => library::decode(text).map(u128::to_be_bytes),
            shown(decode_uuid_with(ours, text)) => library::decode_with(theirs, text).map(u128::to_be_bytes),
            shown(decode_uuid_canonical(text)) => library::decode_canonical(text).map(u128::to_be_bytes),
            shown(decode_uuid_canonical_with(ours, text))
                => library::decode_canonical_with(theirs, text).map(u128::to_be_bytes),
        }
}

fn round(input: &Input) -> usize {
    let ours = Alphabet::new(input.letters).unwrap();
    let theirs = library::Alphabet::new(input.letters);
    let custom = string_of(|buf| library::encode_bytes_with(&theirs, input.number, buf));
    let calls = calls_of_number(input, &ours, &theirs) + strings(input, &ours, &theirs, &custom);
    #[cfg(feature = "original")]
    let calls = calls + original::round(input);
    let of_text = |text: &[u8]| calls_of_text(input, &ours, &theirs, text);
    calls + of_text(&input.text) + of_text(&custom)
}

fn main() {
    let argument = |place| env::args().nth(place).unwrap().parse::<u64>().unwrap();
    let (wanted, mut random, mut calls) = (argument(1), Random(argument(2).into()), 0);
    while calls < wanted as usize {
        calls += round(&Input::new(&mut random));
    }
    println!("{calls} calls compared, and none differed.");
}

/// The calls of the C library, with the names and types of this crate.
mod library {
    use proved::EncodeError;
    use std::ops::RangeInclusive;

    #[repr(C)]
    #[derive(Clone, Copy, Default)]
    struct Number([u64; 2]);

    impl From<u128> for Number {
        fn from(num: u128) -> Self {
            Number([(num >> 64) as u64, num as u64])
        }
    }

    impl Number {
        fn value(self) -> u128 {
            u128::from(self.0[0]) << 64 | u128::from(self.0[1])
        }
    }

    #[repr(C)]
    #[derive(Default)]
    struct BadByte {
        index: usize,
        byte: u8,
    }

    #[repr(C)]
    pub struct Alphabet([u8; 318]);

    // scripts/check-random-calls tells the linker where it is.
    #[link(name = "base62")]
    // SAFETY: the safe ones take references to all that they access.
    unsafe extern "C" {
        safe fn base62_encode_key(number: Number, key: &mut [u8; 22]);
        safe fn base62_digit_count(number: Number) -> usize;
        safe fn base62_alphabet_init(
            own: &mut Alphabet,
            letters: &[u8; 62],
            bad: &mut BadByte,
        ) -> u32;
        fn base62_error_message(status: u32, bad: BadByte, start: *mut u8, size: usize) -> usize;
        fn base62_uuid_from_string(start: *const u8, length: usize, uuid: &mut [u8; 16]) -> u32;
        safe fn base62_uuid_to_string(uuid: &[u8; 16], string: &mut [u8; 36]);
    }

    /// Calls with a buffer. They return how many bytes they wrote, or 0 if it is too small.
    macro_rules! encoders {
        ($($call:ident $name:ident $($own:ident)?,)*) => {
            extern "C" {
                $(fn $name($($own: &Alphabet,)? number: Number, start: *mut u8, size: usize) -> usize;)*
            }
            $(pub fn $call($($own: &Alphabet,)? num: u128, buf: &mut [u8]) -> Result<usize, EncodeError> {
                // SAFETY: a slice is valid for writes of its length, and `Alphabet::new` has made each alphabet.
                let written = unsafe { $name($($own,)? num.into(), buf.as_mut_ptr(), buf.len()) };
                if written == 0 { Err(EncodeError::BufferTooSmall) } else { Ok(written) }
            })*
        };
    }

    encoders! {
        encode_bytes base62_encode,
        encode_alternative_bytes base62_encode_alternative,
        encode_bytes_with base62_encode_with own,
        encode_fixed base62_encode_fixed,
        encode_fixed_with base62_encode_fixed_with own,
    }

    /// The message of an error.
    fn message(status: u32, bad: BadByte) -> String {
        let mut text = [0; 100];
        // SAFETY: an array is valid for writes of its length.
        let length = unsafe { base62_error_message(status, bad, text.as_mut_ptr(), text.len()) };
        String::from_utf8_lossy(&text[..length]).into()
    }

    /// Calls with a text, and in `$width` what follows it. They store a number or a range, of which `$value` makes the result.
    macro_rules! decoders {
        ($stored:ty => $type:ty: $value:expr; $($call:ident $name:ident $($own:ident)? $(($width:ident))?,)*) => {
            extern "C" {
                $(fn $name(
                    $($own: &Alphabet,)? start: *const u8, length: usize, $($width: usize,)? stored: &mut $stored,
                    bad: &mut BadByte,
                ) -> u32;)*
            }
            $(pub fn $call($($own: &Alphabet,)? text: &[u8] $(, $width: usize)?) -> Result<$type, String> {
                let (mut stored, mut bad) = (<$stored>::default(), BadByte::default());
                let (start, length) = (text.as_ptr(), text.len());
                // SAFETY: a slice is valid for reads of its length, and `Alphabet::new` has made each alphabet.
                let status = unsafe { $name($($own,)? start, length, $($width,)? &mut stored, &mut bad) };
                $value(status, stored).ok_or_else(|| message(status, bad))
            })*
        };
    }

    decoders! {
        Number => u128: |status, number: Number| (status == 0).then(|| number.value());
        decode base62_decode,
        decode_alternative base62_decode_alternative,
        decode_with base62_decode_with own,
        decode_canonical base62_decode_canonical,
        decode_canonical_with base62_decode_canonical_with own,
        decode_fixed base62_decode_fixed (width),
        decode_fixed_with base62_decode_fixed_with own (width),
        decode_key base62_decode_key,
    }

    decoders! {
        [Number; 2] => Option<RangeInclusive<u128>>: |status, [least, greatest]: [Number; 2]| match status {
            0 => Some(Some(least.value()..=greatest.value())),
            5 => Some(None),
            _ => None,
        };
        key_range base62_key_range,
        prefix_range base62_prefix_range (width),
        prefix_range_with base62_prefix_range_with own (width),
    }

    /// What a call writes to an array.
    fn written<const N: usize>(call: impl FnOnce(&mut [u8; N])) -> [u8; N] {
        let mut bytes = [0; N];
        call(&mut bytes);
        bytes
    }

    pub fn encode_key(num: u128) -> [u8; 22] {
        written(|key| base62_encode_key(num.into(), key))
    }

    pub fn digit_count(num: u128) -> usize {
        base62_digit_count(num.into())
    }

    pub fn uuid_from_string(string: &[u8]) -> Result<[u8; 16], String> {
        let mut uuid = [0; 16];
        // SAFETY: a slice is valid for reads of its length.
        match unsafe { base62_uuid_from_string(string.as_ptr(), string.len(), &mut uuid) } {
            0 => Ok(uuid),
            status => Err(message(status, BadByte::default())),
        }
    }

    pub fn uuid_to_string(uuid: [u8; 16]) -> [u8; 36] {
        written(|string| base62_uuid_to_string(&uuid, string))
    }

    impl Alphabet {
        pub fn new(characters: [u8; 62]) -> Self {
            let (mut own, mut bad) = (Alphabet([0; 318]), BadByte::default());
            assert_eq!(base62_alphabet_init(&mut own, &characters, &mut bad), 0);
            own
        }
    }
}
