//! The values of tests/values.tsv, by both programs.

mod shell;
#[path = "../../rust/tests/support/mod.rs"]
mod support;

use shell::run;
use std::collections::BTreeMap;
use std::{fs, thread};
use support::{bytes, decode_error, rows};

/// A row of values, without its kind.
type Row = Vec<&'static str>;

/// A line of input, and its line of output or the end of the message about it.
type Line = (Vec<u8>, Result<Vec<u8>, String>);

#[track_caller]
fn check(arguments: &str, lines: impl IntoIterator<Item = Line>) {
    check_program(&format!("base62 {arguments}"), lines);
}

/// Runs a command over lines. Tests run at the same time, each in a thread.
fn run_over(command: &str, input: &[u8]) -> (Option<i32>, String, String) {
    let (folder, id) = (env!("CARGO_TARGET_TMPDIR"), thread::current().id());
    let file = format!("{folder}/{id:?}");
    fs::write(&file, input).unwrap();
    run(&format!("{command} <'{file}'"))
}

/// Compares the status, the output and the messages of a run over lines.
#[track_caller]
fn check_program(command: &str, lines: impl IntoIterator<Item = Line>) {
    let (mut input, mut output, mut errors) = (Vec::new(), Vec::new(), Vec::new());
    // A line has no line feed, and loses one `\r` at its end.
    let is_line = |line: &Line| !line.0.contains(&b'\n') && !line.0.ends_with(b"\r");
    for (number, (line, expected)) in (1..).zip(lines.into_iter().filter(is_line)) {
        input.extend([&line[..], b"\n"].concat());
        match expected {
            Ok(text) => output.extend(text),
            Err(mut error) => {
                // As what a decoder rejects.
                if command.starts_with("base62 decode") && base62::uuid_from_string(&line).is_ok() {
                    error += ": try base62 encode --uuid";
                }
                errors.push((format!("base62: line {number}: "), format!(": {error}")));
            }
        }
        output.push(b'\n');
    }
    let (status, printed, reported) = run_over(command, &input);
    assert_eq!(reported.lines().count(), errors.len(), "{reported}");
    for (line, (start, end)) in reported.lines().zip(&errors) {
        let is_expected = line.starts_with(start) && line.ends_with(end);
        assert!(is_expected, "{line}, not {start}..{end}");
    }
    assert_eq!(printed.as_bytes(), output, "{command}");
    assert_eq!(status, Some(i32::from(!errors.is_empty())));
}

const OVERFLOW: &str = "Encoded input represents 2^128 or more, or has more than 22 characters";

/// The shared message of an error.
fn message(error: &str) -> String {
    let row = rows("message").into_iter().find(|row| row[1..] == [error]);
    String::from_utf8(bytes(row.unwrap()[0])).unwrap()
}

/// What the last fields of a row name: the numbers, or the message of an error.
fn result(fields: &[&str]) -> Result<Vec<u8>, String> {
    match fields {
        ["number", number] => Ok(number.as_bytes().into()),
        ["numbers", least, greatest] => Ok(format!("{least} {greatest}").into()),
        [error @ "none"] => Err(message(error)),
        // Unlike the library's.
        ["overflow"] => Err(OVERFLOW.into()),
        _ => Err(decode_error(fields).unwrap().to_string()),
    }
}

/// Hands the rows of a kind to a test, with the options for their alphabet, and their width if they have one in a field of
/// this index.
fn each(kind: &str, width: Option<usize>, test: impl Fn(&str, &[Row])) {
    // The command accepts printable ASCII characters. In a field, `%` stands for any other byte.
    for alphabet in rows("alphabet").iter().filter(|row| !row[1].contains('%')) {
        let mut by_width = BTreeMap::<_, Vec<_>>::new();
        for row in rows(kind).into_iter().filter(|row| row[0] == alphabet[0]) {
            let width = width.map(|field| row[field]);
            if width.is_none_or(|width| width != "0" && width.parse::<usize>().is_ok()) {
                by_width.entry(width).or_default().push(row);
            }
        }
        for (width, rows) in by_width {
            let width = width.map_or(String::new(), |width| format!("-w {width} "));
            match alphabet[0] {
                "standard" => test(&width, &rows),
                "alternative" => test(&format!("{width}-a"), &rows),
                _ => test(&format!("{width}-A '{}'", alphabet[1]), &rows),
            }
        }
    }
}

/// Lines of two fields of rows: input and output.
fn pairs(rows: &[Row], input: usize, output: usize) -> Vec<Line> {
    let line = |row: &Row| (bytes(row[input]), Ok(bytes(row[output])));
    rows.iter().map(line).collect()
}

#[test]
fn values_of_texts() {
    each("encode", None, |options, rows| {
        check(&format!("encode {options}"), pairs(rows, 1, 2));
        check(&format!("decode {options}"), pairs(rows, 2, 1));
        check(&format!("decode --canonical {options}"), pairs(rows, 2, 1));
        let number = |row: &Row| row[1].parse::<u128>().unwrap();
        let padded = |row: &Row| (format!("0X{:032X}", number(row)).into(), Ok(bytes(row[2])));
        check(&format!("encode --hex {options}"), rows.iter().map(padded));
        let shown = |row: &Row| (bytes(row[2]), Ok(format!("{:x}", number(row)).into()));
        check(&format!("decode --hex {options}"), rows.iter().map(shown));
    });
    each("zeros", None, |options, rows| {
        check(&format!("decode {options}"), pairs(rows, 1, 2));
        let lines = rows.iter().map(|row| (bytes(row[1]), Err(message("zero"))));
        check(&format!("decode -c {options}"), lines);
    });
    each("decode_error", None, |options, rows| {
        let lines = rows.iter().map(|row| (bytes(row[1]), result(&row[2..])));
        check(&format!("decode -u {options}"), lines.clone());
        check(&format!("decode -c {options}"), lines);
    });
}

#[test]
fn values_of_widths() {
    each("fixed", Some(2), |options, rows| {
        check(&format!("encode {options}"), pairs(rows, 1, 3));
    });
    each("too_narrow", Some(2), |options, rows| {
        let lines = rows.iter().map(|row| {
            let count = base62::digit_count(row[1].parse::<u128>().unwrap());
            let width = row[2];
            let error = format!("Number needs {count} characters, and the width is {width}");
            (bytes(row[1]), Err(error))
        });
        check(&format!("encode {options}"), lines);
    });
    each("decode_fixed", Some(1), |options, rows| {
        let lines = rows.iter().map(|row| match (row[3], bytes(row[2])) {
            ("length", string) => {
                let (length, width) = (string.len(), row[1]);
                let bytes = if length == 1 { "byte" } else { "bytes" };
                let error = format!("Encoded input has {length} {bytes}, not {width}");
                (string, Err(error))
            }
            (_, string) => (string, result(&row[3..])),
        });
        check(&format!("decode {options}"), lines);
    });
}

#[test]
fn values_of_ranges() {
    each("range", Some(1), |options, rows| {
        let lines = rows.iter().map(|row| (bytes(row[2]), result(&row[3..])));
        check(&format!("range {options}"), lines.clone());
        // It is the width without an option.
        if let Some(options) = options.strip_prefix("-w 22 ") {
            let none = "No string of 22 characters begins with the prefix; -w sets the width";
            let own = |error: String| error.replace(&message("none"), none);
            let lines = lines.map(|(prefix, result)| (prefix, result.map_err(own)));
            check(&format!("range {options}"), lines);
        }
    });
}

#[test]
fn uuids() {
    check("encode -u", pairs(&rows("uuid"), 1, 2));
    check("decode -u", pairs(&rows("uuid"), 2, 1));
    let number = |uuid: &str| u128::from_str_radix(&uuid.replace('-', ""), 16).unwrap();
    let line = |row: &Row| match row[1] {
        "none" => (bytes(row[0]), Err(message("uuid"))),
        uuid => (bytes(row[0]), Ok(base62::encode(number(uuid)).into())),
    };
    // The command ignores blanks around a number.
    let is_bare = |row: &&Row| bytes(row[0]).trim_ascii() == bytes(row[0]);
    let rows = rows("uuid_string");
    check("encode -u", rows.iter().filter(is_bare).map(line));
}

/// An error for the string of a UUID, and no other one, names the option for UUIDs.
#[test]
fn hints() {
    let hints = [": try --uuid", ": try base62 encode --uuid"];
    for (name, hint) in ["encode", "decode"].into_iter().zip(hints) {
        let mut rows = rows("hint");
        rows.retain(|row| row[0] == name && !row[1].contains("%0A"));
        let lines: Vec<_> = rows.iter().map(|row| bytes(row[1])).collect();
        let (_, _, errors) = run_over(&format!("base62 {name}"), &lines.join(&b'\n'));
        for (number, row) in (1..).zip(rows) {
            let start = format!("base62: line {number}: ");
            let error = errors.lines().find(|error| error.starts_with(&start));
            let is_named = error.is_some_and(|error| error.ends_with(hint));
            assert_eq!(is_named, row[2] == "uuid", "{name}: {row:?}: {error:?}");
        }
    }
}

#[test]
fn lines_of_base62_cli() {
    let mut lines = Vec::new();
    let mut add = |command: &str, input: &[u8], reply: Vec<u8>| {
        lines.push(([command.as_bytes(), b" ", input].concat(), Ok(reply)));
    };
    for (name, encode, decode) in [("standard", "enc", "dec"), ("alternative", "alt", "adc")] {
        let of = |kind| rows(kind).into_iter().filter(move |row| row[0] == name);
        for row in of("encode") {
            add(encode, format!("000{}", row[1]).as_bytes(), bytes(row[2]));
            add(decode, &bytes(row[2]), bytes(row[1]));
        }
        for row in of("zeros") {
            add(decode, &bytes(row[1]), bytes(row[2]));
        }
        for row in of("decode_error") {
            let fault = format!("fault: {}", decode_error(&row[2..]).unwrap());
            add(decode, &bytes(row[1]), fault.into());
        }
        for input in ["", "+1", "1 ", "340282366920938463463374607431768211456"] {
            add(encode, input.as_bytes(), "fault: not a number".into());
        }
    }
    check_program("base62_cli", lines);
}
