// SPDX-License-Identifier: MIT
// Copyright (c) 2026 the maintainers of base62 for Rattle

//! A hint for those who meant another program.

use crate::streams::{read_uninterrupted, report};
use std::io::{self, IsTerminal, Read};

/// Standard input. Reports the hint if it is a terminal, or if the first line does not begin with a command. It keeps the
/// first four bytes until they show whether it does.
pub(crate) struct HintingInput(Option<Vec<u8>>);

impl HintingInput {
    pub(crate) fn new() -> HintingInput {
        let mut input = HintingInput(Some(Vec::with_capacity(4)));
        if io::stdin().is_terminal() {
            input.report_hint();
        }
        input
    }

    fn report_hint(&mut self) {
        self.0 = None;
        report("It replies to lines such as `enc 1337` and `dec LZ`: try base62_cli --help");
    }
}

impl Read for HintingInput {
    fn read(&mut self, buf: &mut [u8]) -> io::Result<usize> {
        let count = read_uninterrupted(&mut io::stdin(), buf)?;
        let Some(start) = &mut self.0 else {
            return Ok(count);
        };
        start.extend(buf[..count].iter().take(4 - start.len()));
        let is_whole = start.len() == 4 || start.contains(&b'\n') || count == 0;
        let is_command = matches!(start.as_slice(), b"enc " | b"dec " | b"alt " | b"adc ");
        if is_whole && !is_command && !start.is_empty() {
            self.report_hint();
        }
        Ok(count)
    }
}
