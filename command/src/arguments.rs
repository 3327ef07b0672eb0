// SPDX-License-Identifier: MIT
// Copyright (c) 2026 the maintainers of base62 for Rattle

//! Parses the arguments. An error says what is wrong with them, and ends with a hint.

use crate::conversion::{Converter, decode, encode, range};
use crate::escape::Escaped;
use crate::help::{COMMAND, DECODE, ENCODE, OPTIONS, RANGE, VERSION, with_options};
use crate::numbers::parse_decimal;
use base62::Alphabet;

/// A subcommand: its name, the letters of its options, its help, a line of input, and what it does with one.
pub(crate) type Subcommand<'a> = (&'a str, &'a str, &'a str, &'a str, Converter);

static SUBCOMMANDS: [Subcommand; 3] = [
    ("encode", "aAwuxe", ENCODE, "1337", encode),
    ("decode", "aAwcuxe", DECODE, "LZ", decode),
    ("range", "aAw", RANGE, "000L", range),
];

/// How numbers are read and printed, if not in decimal.
pub(crate) enum Notation {
    Hexadecimal,
    Uuid,
}

/// What the options set.
#[derive(Default)]
pub(crate) struct Settings {
    pub(crate) alphabet: Alphabet,
    pub(crate) width: Option<usize>,
    pub(crate) needs_canonical: bool,
    pub(crate) notation: Option<Notation>,
    pub(crate) keeps_empty: bool,
}

pub(crate) enum Action {
    /// Converts the operands. The settings are boxed because the alphabet is large.
    Convert(&'static Subcommand<'static>, Box<Settings>, Vec<Vec<u8>>),
    Print(String),
}

/// The names of an option, such as `-w` and `--width`, and its value, which is empty if it has none.
type Given = (&'static str, &'static str, Vec<u8>);

type Rest<'a> = &'a mut dyn Iterator<Item = Vec<u8>>;

/// Parses the arguments after the name of the program.
pub(crate) fn parse(mut rest: impl Iterator<Item = Vec<u8>>) -> Result<Action, String> {
    let (mut given, mut operands) = (Vec::new(), Vec::new());
    let split = split(&mut rest, &mut given, &mut operands);
    let is_given = |wanted| given.iter().any(|(_, name, _)| *name == wanted);
    if is_given("--version") {
        return Ok(Action::Print(VERSION.into()));
    }
    // An invalid option after --help is not an error. Values are not checked then.
    if !is_given("--help") {
        split?;
    }
    if is_given("--help") || operands.first().is_some_and(|name| name == b"help") {
        // `help --help` prints the help of the command.
        let name = operands.iter().find(|name| *name != b"help");
        let row = name.map(|name| find_subcommand(name)).transpose()?;
        let (letters, help) = row.map_or(("hV", COMMAND), |(_, letters, help, ..)| (letters, help));
        return Ok(Action::Print(with_options(help, letters)));
    }
    let name = operands.first();
    let subcommand = find_subcommand(name.ok_or("No subcommand is given: try base62 --help")?)?;
    operands.remove(0);
    let settings = settings_of(subcommand, &given);
    let settings = settings.map_err(|error| error + ": try base62 --help")?;
    Ok(Action::Convert(subcommand, Box::new(settings), operands))
}

/// Splits the arguments into options and operands, up to an invalid option.
fn split(rest: Rest, given: &mut Vec<Given>, operands: &mut Vec<Vec<u8>>) -> Result<(), String> {
    while let Some(argument) = rest.next() {
        match argument.as_slice() {
            b"--" => operands.extend(&mut *rest),
            // Such as `--width` or `--width=11`.
            [b'-', b'-', ..] => {
                let mut parts = argument.splitn(2, |byte| *byte == b'=');
                let name = parts.next().unwrap_or_default();
                given.push(with_value(name, parts.next(), rest)?);
            }
            // Such as `-auw11`.
            [b'-', letters @ ..] if !letters.is_empty() => {
                for (index, letter) in letters.iter().enumerate() {
                    let name = [b'-', *letter];
                    let (_, _, needs_value) = find_option(&name)?;
                    let attached = Some(&letters[index + 1..]);
                    let attached = attached.filter(|after| needs_value && !after.is_empty());
                    given.push(with_value(&name, attached, rest)?);
                    if needs_value {
                        break;
                    }
                }
            }
            _ => operands.push(argument),
        }
    }
    Ok(())
}

/// The option with its value: the attached one, or else the next argument.
fn with_value(name: &[u8], attached: Option<&[u8]>, rest: Rest) -> Result<Given, String> {
    let (short, long, needs_value) = find_option(name)?;
    let value = match attached.map(<[u8]>::to_vec) {
        attached if needs_value => attached.or_else(|| rest.next()).ok_or("needs a value"),
        Some(_) => Err("takes no value"),
        None => Ok(Vec::new()),
    };
    let error = |error| format!("Option {} {error}: try base62 --help", Escaped(name));
    Ok((short, long, value.map_err(error)?))
}

/// What the options of a subcommand set. The last one of a kind applies.
fn settings_of(
    (subcommand, letters, ..): &Subcommand,
    given: &[Given],
) -> Result<Settings, String> {
    let mut settings = Settings::default();
    for (short, name, value) in given {
        match *name {
            _ if !letters.contains(&short[1..]) => {
                return Err(format!("Subcommand {subcommand} has no option {name}"));
            }
            "--alternative" => settings.alphabet = Alphabet::alternative(),
            "--alphabet" => settings.alphabet = parse_alphabet(value)?,
            "--width" => settings.width = Some(parse_width(value)?),
            "--canonical" => settings.needs_canonical = true,
            "--uuid" => settings.notation = Some(Notation::Uuid),
            "--hex" => settings.notation = Some(Notation::Hexadecimal),
            "--keep-empty" => settings.keeps_empty = true,
            _ => (),
        }
    }
    if settings.needs_canonical && settings.width.is_some() {
        return Err("Subcommand decode takes --canonical or --width, not both".into());
    }
    Ok(settings)
}

fn find_subcommand(name: &[u8]) -> Result<&'static Subcommand<'static>, String> {
    let named = SUBCOMMANDS.iter().find(|(own, ..)| own.as_bytes() == name);
    named.ok_or_else(|| {
        // A misspelled name mostly begins with the right letter, and digits are for encode.
        let meant = match name.first() {
            Some(b'e' | b'E' | b'0'..=b'9') => "encode",
            Some(b'd' | b'D') => "decode",
            Some(b'r' | b'R') => "range",
            _ => "--help",
        };
        let name = Escaped(name);
        format!("There is no subcommand {name}: try base62 {meant}")
    })
}

/// The names of an option, and whether it needs a value. A row begins with such as `-w, --width N`, and two spaces.
fn find_option(name: &[u8]) -> Result<(&'static str, &'static str, bool), String> {
    let mut all = OPTIONS.lines().map(|row| {
        let names = row[4..].split("  ").next().unwrap_or_default();
        let (long, value) = names.split_once(' ').unwrap_or((names, ""));
        (&row[..2], long, !value.is_empty())
    });
    let named = all.find(|(short, long, _)| [short.as_bytes(), long.as_bytes()].contains(&name));
    named.ok_or_else(|| {
        let hint = match name {
            [b'-', b'0'..=b'9'] => "numbers are not negative",
            _ => "try base62 --help",
        };
        format!("There is no option {}: {hint}", Escaped(name))
    })
}

fn parse_width(value: &[u8]) -> Result<usize, String> {
    if value.iter().all(u8::is_ascii_digit) && value.iter().any(|digit| *digit != b'0') {
        // A width above `usize::MAX` becomes `usize::MAX`. With either, `encode` runs out of memory, `decode` rejects each
        // string, and `range` prints the same numbers.
        let width = parse_decimal(value).and_then(|width| width.try_into().ok());
        return Ok(width.unwrap_or(usize::MAX));
    }
    let value = Escaped(value);
    Err(format!("A width is an integer of 1 or more, not {value}"))
}

fn parse_alphabet(value: &[u8]) -> Result<Alphabet, String> {
    if !value.iter().all(|byte| matches!(byte, b' '..=b'~')) {
        return Err("Alphabet has a character that is not printable ASCII".into());
    }
    let characters: &[u8; 62] = value.try_into().map_err(|_| match value {
        b"alternative" => "For this alphabet there is --alternative".into(),
        b"standard" => "For this alphabet no option is needed".into(),
        [_] => "Alphabet has 1 character, not 62".into(),
        _ => format!("Alphabet has {} characters, not 62", value.len()),
    })?;
    Alphabet::new(*characters).map_err(|error| error.to_string())
}
