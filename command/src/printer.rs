// SPDX-License-Identifier: MIT
// Copyright (c) 2026 the maintainers of base62 for Rattle

//! Prints the results for operands, or for the lines of standard input.

use crate::arguments::{Settings, Subcommand};
use crate::conversion::ConversionError;
use crate::escape::Escaped;
use crate::fault::ToolFault;
use crate::input_hint::hint_for;
use crate::line_end::line_end;
use crate::memory::Bytes;
use crate::numbers::append;
use crate::streams::{print, read_uninterrupted, report};
use std::io::{self, IsTerminal};
use std::process::ExitCode;

/// How many bytes are read at a time, and collected before they are written.
const CHUNK_LEN: usize = 32768;

/// Prints the result for each operand, or for each line if there is no operand.
pub(crate) fn print_all(
    subcommand: &Subcommand,
    settings: &Settings,
    operands: &[Vec<u8>],
) -> Result<ExitCode, ToolFault> {
    let is_terminal = io::stdout().is_terminal();
    let mut printer = Printer {
        subcommand,
        settings,
        buffer: Bytes::new(),
        limit: if is_terminal { 0 } else { CHUNK_LEN },
        status: ExitCode::SUCCESS,
    };
    if operands.is_empty() {
        printer.print_lines()?;
    }
    for operand in operands {
        printer.print(operand, None)?;
    }
    printer.flush()?;
    Ok(printer.status)
}

struct Printer<'a> {
    subcommand: &'a Subcommand<'a>,
    settings: &'a Settings,
    /// The results that are not yet written.
    buffer: Bytes,
    /// How many bytes it may keep: none for a terminal.
    limit: usize,
    status: ExitCode,
}

impl Printer<'_> {
    /// Prints the result for an operand, or for the line of this number. If the input is invalid, first prints the
    /// results so far and reports the error. Then the line of output is empty.
    fn print(&mut self, input: &[u8], line: Option<u64>) -> Result<(), ToolFault> {
        let (subcommand, .., convert) = *self.subcommand;
        let result = match input {
            [] if self.settings.keeps_empty => Ok(()),
            _ => convert(self.settings, input, &mut self.buffer),
        };
        match result {
            Ok(()) => (),
            Err(ConversionError::Failure(failure)) => return Err(failure),
            Err(error) => {
                self.flush()?;
                self.status = ExitCode::FAILURE;
                let hint = hint_for(subcommand, self.settings, input, line.is_none(), &error);
                let shown = Escaped(input);
                match line {
                    Some(number) => report(format_args!("line {number}: {shown}: {error}{hint}")),
                    None => report(format_args!("{shown}: {error}{hint}")),
                }
            }
        }
        append(b"\n", &mut self.buffer)?;
        if self.buffer.as_slice().len() > self.limit {
            self.flush()?;
        }
        Ok(())
    }

    fn flush(&mut self) -> Result<(), ToolFault> {
        print(self.buffer.as_slice()).or(Err(ToolFault::Write))?;
        self.buffer.clear();
        Ok(())
    }

    /// Prints the result for each line of standard input. Writes the results so far before a read, which may block.
    fn print_lines(&mut self) -> Result<(), ToolFault> {
        if io::stdin().is_terminal() {
            let (name, _, _, example, _) = self.subcommand;
            report(format_args!(
                "It reads lines such as `{example}`: try base62 {name} --help"
            ));
        }
        let (mut chunk, mut start, mut number) = ([0; CHUNK_LEN], Bytes::new(), 0);
        loop {
            self.flush()?;
            let read = read_uninterrupted(&mut io::stdin(), &mut chunk);
            let count = read.or(Err(ToolFault::Read))?;
            if count == 0 {
                // The last line needs no line feed.
                return match start.as_slice() {
                    [] => Ok(()),
                    line => self.print(line, Some(number + 1)),
                };
            }
            let mut rest = &chunk[..count];
            while let Some(end) = line_end(rest) {
                let mut line = &rest[..end];
                if !start.as_slice().is_empty() {
                    append(line, &mut start)?;
                    line = start.as_slice();
                }
                number += 1;
                self.print(line.strip_suffix(b"\r").unwrap_or(line), Some(number))?;
                start.clear();
                rest = &rest[end + 1..];
            }
            append(rest, &mut start)?;
        }
    }
}
