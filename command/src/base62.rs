// SPDX-License-Identifier: MIT
// Copyright (c) 2026 the maintainers of base62 for Rattle

//! The command `base62`, which encodes and decodes operands or lines.

mod arguments;
mod conversion;
mod escape;
mod help;
mod input_hint;
mod line_end;
mod memory;
mod numbers;
mod printer;
mod streams;

// Translated from `crates/base62_cli`.
mod generated {
    pub(crate) mod fault;
}
use generated::*;

use arguments::Action;
use fault::ToolFault;
use std::process::ExitCode;
use std::{env, ffi::OsString};
use streams::{print, report};

fn main() -> ExitCode {
    let arguments = env::args_os().skip(1).map(OsString::into_encoded_bytes);
    let outcome = match arguments::parse(arguments) {
        Ok(Action::Convert(subcommand, settings, operands)) => {
            printer::print_all(subcommand, &settings, &operands)
        }
        Ok(Action::Print(text)) => {
            let printed = print(text.as_bytes()).or(Err(ToolFault::Write));
            printed.map(|()| ExitCode::SUCCESS)
        }
        Err(error) => {
            report(error);
            return ExitCode::from(2);
        }
    };
    outcome.unwrap_or_else(|failure| {
        report(match failure {
            ToolFault::Read => "Read failed",
            ToolFault::Write => "Write failed",
            ToolFault::Memory => "Out of memory",
        });
        ExitCode::FAILURE
    })
}
