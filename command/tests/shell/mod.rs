//! Lines of bash that run the programs.
#![allow(dead_code)]

use std::env;
use std::path::Path;
use std::process::Command;

const LETTERS: &str = "0123456789ABCDEFGHIJKLMNOPQRSTUVWXYZabcdefghijklmnopqrstuvwxyz";

/// Runs a line of bash, which finds the programs by their names. `BASE62_CLI` names another `base62_cli`. `$crate` is the
/// folder of this crate, and `$letters` the standard alphabet. Returns the status, and what standard output and standard
/// error got.
pub fn run(line: &str) -> (Option<i32>, String, String) {
    let program = env::var("BASE62_CLI").unwrap_or(env!("CARGO_BIN_EXE_base62_cli").into());
    let folder = Path::new(&program).parent().unwrap().display();
    let mut bash = Command::new("bash");
    bash.args(["-c", line]);
    bash.env("PATH", format!("{folder}:{}", env::var("PATH").unwrap()));
    bash.env("crate", env!("CARGO_MANIFEST_DIR"));
    bash.env("letters", LETTERS);
    let ended = bash.output().unwrap();
    let text = |bytes| String::from_utf8(bytes).unwrap();
    (ended.status.code(), text(ended.stdout), text(ended.stderr))
}

/// Compares all that `run` returns.
#[track_caller]
pub fn ends(line: &str, status: i32, output: &str, errors: &str) {
    let expected = (Some(status), output.into(), errors.into());
    assert_eq!(run(line), expected, "{line}");
}

/// The line ends well, and writes nothing to standard error.
#[track_caller]
pub fn prints(line: &str, output: &str) {
    ends(line, 0, output, "");
}

/// Whether a tool is installed, without which the test is left out.
pub fn is_installed(tool: &str) -> bool {
    let is_installed = run(&format!("command -v {tool}")).0 == Some(0);
    if !is_installed {
        println!("left out: a test that needs {tool}");
    }
    is_installed
}

/// The line, with `$file` as the name of a new file in a folder of its own, which is removed.
pub fn in_a_file(line: &str) -> String {
    format!("folder=$(mktemp -d); file=$folder/file; trap 'rm -r $folder' EXIT; {line}")
}

/// Both sides of each row of a table, in which ` -> ` separates them.
pub fn sides(table: &str) -> impl Iterator<Item = (&str, &str)> {
    let rows = table.trim().lines().map(str::trim);
    rows.map(|row| row.split_once("-> ").unwrap())
}
