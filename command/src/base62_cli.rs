// SPDX-License-Identifier: MIT
// Copyright (c) 2026 the maintainers of base62 for Rattle

//! The program `base62_cli`: the translation of a proved one, over standard input and output.

mod hint;
mod line_end;
mod memory;
mod streams;
#[cfg(test)]
mod tests;

// Translated from `crates/base62_cli`.
mod generated {
    pub(crate) mod fault;
    pub(crate) mod reply;
    pub(crate) mod tool;
}
use generated::*;

use fault::ToolFault;
use hint::HintingInput;
use std::process::ExitCode;
use std::{env, ffi::OsString, io};
use streams::{Output, print, print_error, report};

const HELP: &str = "\
Usage: base62_cli [OPTION]
Replies to each line of standard input with one line.

  enc NUMBER  the reply is the encoded string of a decimal number below 2^128
  dec STRING  the reply is the decimal number that the string represents
  alt NUMBER  like enc, but in the alphabet 0 to 9, a to z, A to Z
  adc STRING  like dec, but in that alphabet

  -h, --help     print this help
  -V, --version  print the version

The reply to any other line begins with fault:, and the exit status is still 0.

  $ echo enc 1337 | base62_cli
  LZ

Exit status:
  0  there is a reply to each line
  1  a read, a write or an allocation fails
  2  an argument is not an option
";
const VERSION: &str = concat!("base62_cli ", env!("CARGO_PKG_VERSION"), "\n");

fn main() -> ExitCode {
    let argument = env::args_os().nth(1).map(OsString::into_encoded_bytes);
    let outcome = match argument.as_deref() {
        None => tool::run(&mut HintingInput::new(), &mut Output(io::stdout())),
        Some(b"-h" | b"--help") => print(HELP.as_bytes()).or(Err(ToolFault::Write)),
        Some(b"-V" | b"--version") => print(VERSION.as_bytes()).or(Err(ToolFault::Write)),
        Some(_) => {
            report("It reads standard input, and has no operands: try base62_cli --help");
            return ExitCode::from(2);
        }
    };
    match outcome {
        Ok(()) => ExitCode::SUCCESS,
        Err(fault) => {
            print_error(fault);
            ExitCode::FAILURE
        }
    }
}
