// SPDX-License-Identifier: MIT
// Copyright (c) 2026 the maintainers of base62 for Rattle

//! What both programs read with.

use crate::line_end::line_end;
use crate::streams::read_uninterrupted;
use std::io::{self, ErrorKind, Read};

/// Eight bytes are compared at a time, by a subtraction whose borrow reaches the bytes behind the first end of a line.
#[test]
fn line_ends_at_each_index() {
    for byte in [0, 9, 11, 10 ^ 128, 255] {
        for length in 0..34 {
            assert_eq!(line_end(&vec![byte; length]), None);
            for end in 0..length {
                let mut bytes = vec![byte; length];
                bytes[end] = b'\n';
                assert_eq!(line_end(&bytes), Some(end));
                bytes[length - 1] = b'\n';
                assert_eq!(line_end(&bytes), Some(end));
            }
        }
    }
}

/// Its first read fails with the error, and the next one reads one byte.
struct Slow(Option<ErrorKind>);

impl Read for Slow {
    fn read(&mut self, buf: &mut [u8]) -> io::Result<usize> {
        match self.0.take() {
            Some(kind) => Err(kind.into()),
            None => (&b"L"[..]).read(buf),
        }
    }
}

#[test]
fn interrupted_reads() {
    let mut buf = [0; 2];
    let mut reader = Slow(Some(ErrorKind::Interrupted));
    assert_eq!(read_uninterrupted(&mut reader, &mut buf).unwrap(), 1);
    assert_eq!(&buf, b"L\0");
    // A stream that does not block has no bytes yet.
    let mut reader = Slow(Some(ErrorKind::WouldBlock));
    assert!(read_uninterrupted(&mut reader, &mut buf).is_err());
}
