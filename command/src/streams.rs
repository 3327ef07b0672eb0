// SPDX-License-Identifier: MIT
// Copyright (c) 2026 the maintainers of base62 for Rattle

//! Standard input, output and error.

use crate::memory::Bytes;
use std::fmt::Display;
use std::io::{self, ErrorKind, Read, Stdout, Write};
use std::process;

/// Reads, and does it again if a signal has interrupted it.
pub(crate) fn read_uninterrupted(input: &mut impl Read, buf: &mut [u8]) -> io::Result<usize> {
    loop {
        match input.read(buf) {
            Err(error) if error.kind() == ErrorKind::Interrupted => (),
            result => return result,
        }
    }
}

/// Standard output. A closed pipe ends the program, as SIGPIPE does, but with status 0. The runtime of Rust allocates a
/// buffer when `io::stdout` is first called, and aborts if it cannot, so both programs call it before they read.
pub(crate) struct Output(pub(crate) Stdout);

impl Write for Output {
    /// Flushes too: a write may leave some bytes in a buffer.
    fn write(&mut self, bytes: &[u8]) -> io::Result<usize> {
        let written = self.0.write(bytes);
        let written = written.and_then(|count| self.0.flush().map(|()| count));
        written.inspect_err(|error| {
            if error.kind() == ErrorKind::BrokenPipe {
                process::exit(0);
            }
        })
    }

    fn flush(&mut self) -> io::Result<()> {
        Ok(())
    }
}

/// Writes all bytes to standard output.
pub(crate) fn print(bytes: &[u8]) -> io::Result<()> {
    Output(io::stdout()).write_all(bytes)
}

/// Writes one line to standard error, after the program's name.
pub(crate) fn report(message: impl Display) {
    print_error(format_args!("{}: {message}", env!("CARGO_BIN_NAME")));
}

/// Writes one line to standard error. If this fails, only the exit status reports the error.
pub(crate) fn print_error(message: impl Display) {
    let mut line = Bytes::new();
    if writeln!(line, "{message}").is_ok() {
        let _ = io::stderr().write_all(line.as_slice());
    }
}
