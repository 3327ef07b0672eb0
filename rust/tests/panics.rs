//! A panic over letters that are repeated or not ASCII says so, and tells the place of the call in the caller's code. It
//! changes no string.
#![cfg(feature = "alloc")]

use base62::*;
use std::panic::{AssertUnwindSafe, Location, catch_unwind, set_hook};
use std::sync::Mutex;

static PANIC: Mutex<Option<(String, u32, String)>> = Mutex::new(None);

/// Runs a call that stands in the line of this one.
#[track_caller]
fn panics_here<T>(said: &str, call: impl FnOnce() -> T) {
    assert!(catch_unwind(AssertUnwindSafe(call)).is_err());
    // What is compared holds no lock, which the next panic would wait for.
    let panicked = PANIC.lock().unwrap().take();
    let line = Location::caller().line();
    assert_eq!(panicked, Some((file!().into(), line, said.into())));
}

#[test]
fn the_caller_is_reported() {
    set_hook(Box::new(|panic| {
        let place = panic.location().unwrap();
        let said = panic.payload().downcast_ref::<&str>().unwrap_or(&"");
        *PANIC.lock().unwrap() = Some((place.file().into(), place.line(), (*said).into()));
    }));
    for place in 1..62 {
        let mut letters = *Alphabet::standard().characters();
        letters[place] = letters[place - 1];
        let said = "the alphabet repeats a character";
        panics_here(said, || Alphabet::from_static(letters));
    }
    let said = "the alphabet has a non-ASCII character";
    for (place, byte) in (0..62).flat_map(|place| [128, 194, 255].map(|byte| (place, byte))) {
        let mut letters = *Alphabet::standard().characters();
        letters[place] = byte;
        let own = Alphabet::from_static(letters);
        panics_here(said, || encode_with(&own, 7_u8));
        panics_here(said, || encode_uuid_with(&own, [7; 16]));
        panics_here(said, || encode_fmt_with(&own, 7_u8));
        let mut at = [b'?'; 3];
        panics_here(said, || encode_fixed_str_with(&own, 7_u8, &mut at).is_ok());
        assert_eq!(&at, b"???");
        for room in [0, 30] {
            let mut buf = String::with_capacity(room);
            buf.push('é');
            let capacity = buf.capacity();
            panics_here(said, || encode_buf_with(&own, 7_u8, &mut buf));
            assert_eq!((buf.as_str(), buf.capacity()), ("é", capacity));
        }
    }
}
