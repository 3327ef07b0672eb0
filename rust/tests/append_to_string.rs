//! Functions that append to a string: what they append, what they allocate, and that the rest stays unchanged.
#![cfg(feature = "alloc")]

mod support;

use base62::Alphabet;
use std::alloc::{GlobalAlloc, Layout, System};
use std::cell::Cell;
use std::process::Command;
use std::str;
use support::{bytes, each};

thread_local! {
    static REQUESTS: Cell<usize> = const { Cell::new(0) };
    static IS_REFUSING: Cell<bool> = const { Cell::new(false) };
}

/// Counts the requests of a thread, and refuses them if it is told to.
struct Counted;

#[global_allocator]
static ALLOCATOR: Counted = Counted;

// SAFETY: memory of the system.
unsafe impl GlobalAlloc for Counted {
    unsafe fn alloc(&self, layout: Layout) -> *mut u8 {
        REQUESTS.set(REQUESTS.get() + 1);
        if IS_REFUSING.get() {
            return std::ptr::null_mut();
        }
        System.alloc(layout)
    }

    unsafe fn dealloc(&self, place: *mut u8, layout: Layout) {
        System.dealloc(place, layout);
    }
}

/// Appends with each spare capacity. Memory is requested once if the capacity is too small, and otherwise never.
fn appends(text: &str, call: impl Fn(&mut String)) {
    for room in 0..30 {
        let mut buf = String::with_capacity("é".len() + room);
        buf.push('é');
        let (capacity, fits) = (buf.capacity(), buf.capacity() - buf.len() >= text.len());
        let before = REQUESTS.get();
        call(&mut buf);
        assert_eq!(REQUESTS.get() - before, usize::from(!fits));
        assert_eq!(buf.capacity() == capacity, fits);
        assert_eq!(buf, format!("é{text}"));
    }
}

#[test]
fn each_length_in_each_capacity() {
    each("encode", |alphabet, row| {
        if alphabet.is_ascii() {
            let (num, text) = (row[0].parse::<u128>().unwrap(), bytes(row[1]));
            let text = str::from_utf8(&text).unwrap();
            appends(text, |buf| base62::encode_buf_with(alphabet, num, buf));
            if *alphabet == Alphabet::standard() {
                appends(text, |buf| base62::encode_buf(num, buf));
            }
            if *alphabet == Alphabet::alternative() {
                appends(text, |buf| base62::encode_alternative_buf(num, buf));
            }
        }
    });
}

#[test]
fn refused_memory_ends_the_program() {
    const CHILD: &str = "BASE62_REFUSED";
    if std::env::var_os(CHILD).is_some() {
        let mut buf = String::new();
        IS_REFUSING.set(true);
        base62::encode_buf(1337_u32, &mut buf);
        IS_REFUSING.set(false);
        std::process::exit(0);
    }
    let mut child = Command::new(std::env::current_exe().unwrap());
    child.arg("refused_memory_ends_the_program");
    let output = child.env(CHILD, "").output().unwrap();
    assert!(!output.status.success());
    let said = String::from_utf8(output.stderr).unwrap();
    let message = "memory allocation of 8 bytes failed";
    assert!(said.contains(message), "{said}");
}
