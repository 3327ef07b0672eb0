//! `base62_cli`, if its input, output or memory fails, and if all goes well. `BASE62_CLI` names another program to test,
//! which `.ci/compare-programs` sets.

mod shell;

use shell::{ends, in_a_file, prints, run};
use std::{env, fs};

const STORED: &str = concat!(env!("CARGO_MANIFEST_DIR"), "/../crates/base62_cli");

fn is_other() -> bool {
    env::var_os("BASE62_CLI").is_some()
}

fn fails(line: &str, error: &str) {
    ends(line, 1, "", &format!("base62_cli: {error}\n"));
    // Only the status reports it then.
    ends(&format!("{line} 2>&-"), 1, "", "");
}

#[test]
fn the_stored_run() {
    let output = fs::read_to_string(format!("{STORED}/stdout")).unwrap();
    prints(&format!("base62_cli <'{STORED}/stdin'"), &output);
    prints(&format!("base62_cli <'{STORED}/stdin' 2>&-"), &output);
    let each_byte = format!("dd bs=1 status=none <'{STORED}/stdin'");
    prints(&format!("{each_byte} | base62_cli"), &output);
    // The other one ignores arguments.
    if is_other() {
        prints(&format!("{each_byte} | base62_cli dec LZ --help"), &output);
    }
}

#[test]
fn arguments() {
    if is_other() {
        return;
    }
    let version = concat!("base62_cli ", env!("CARGO_PKG_VERSION"), "\n");
    prints("base62_cli -V", version);
    prints("base62_cli --version", version);
    let help = run("base62_cli --help").1;
    prints("base62_cli -h", &help);
    let example = "  $ echo enc 1337 | base62_cli\n  LZ\n";
    assert!(help.contains(example), "{help}");
    let error = "base62_cli: It reads standard input, and has no operands: try base62_cli --help\n";
    for argument in ["enc", "''", "--", "-x"] {
        let line = format!("{{ base62_cli {argument}; status=$?; cat; exit $status; }} <<<unread");
        ends(&line, 2, "unread\n", error);
    }
}

/// The first line shows that another program may have been meant.
#[test]
fn lines_of_no_command() {
    if is_other() {
        return;
    }
    let hint =
        "base62_cli: It replies to lines such as `enc 1337` and `dec LZ`: try base62_cli --help\n";
    let fault = "fault: unknown command\n";
    for line in ["", "enc", "ENC 5", "\\xff"] {
        ends(&format!(r"printf '{line}\n' | base62_cli"), 0, fault, hint);
    }
    ends("printf enc | base62_cli", 0, fault, hint);
    prints("base62_cli </dev/null", "");
    for command in ["enc", "alt", "dec", "adc"] {
        let line = format!(r"printf '{command} 5\nx\n' | base62_cli");
        prints(&line, &format!("5\n{fault}"));
    }
    // Of three reads, the second shows whether the first line is a request. The hint comes once.
    let reads =
        |part| format!("{{ printf en; sleep .2; echo {part}; sleep .2; echo x; }} | base62_cli");
    prints(&reads("c 5"), &format!("5\n{fault}"));
    ends(&reads("d 5"), 0, &fault.repeat(2), hint);
    // And before the reply.
    for line in ["5", "encode 5"] {
        let line = format!(
            "coproc base62_cli 2>&1; echo {line} >&${{COPROC[1]}}
            timeout 300 head -n 1 <&${{COPROC[0]}}"
        );
        prints(&line, hint);
    }
}

#[cfg(target_os = "linux")]
#[test]
fn failing_streams() {
    fails("base62_cli </", "read failed");
    for option in ["", "--help", "--version"] {
        let line = format!("base62_cli {option} >/dev/full <<<'enc 5'");
        fails(&line, "write failed");
    }
    // The file takes 1024 bytes, which end within a reply.
    let line = r#"trap "" XFSZ; ulimit -f 1; printf 'enc x\n%.0s' {1..100} | base62_cli >$file"#;
    let line = in_a_file(&format!("{line}; status=$?; cat $file; exit $status"));
    let output = ["fault: not a number\n"; 51].concat() + "faul";
    ends(&line, 1, &output, "base62_cli: write failed\n");
}

/// Under 64 MiB, the allocation for a line without an end fails within a second.
#[cfg(target_os = "linux")]
#[test]
fn no_memory_for_a_line() {
    let line = "{ echo enc 1337; exec head -c 200000000 /dev/zero; } 2>/dev/null | (ulimit -v 65536; exec base62_cli)";
    ends(line, 1, "LZ\n", "base62_cli: out of memory\n");
}

/// Here the other program fails. The runtime of Rust opens a standard input or output that is closed as /dev/null. The
/// last line closes the one reader of a pipe before the program writes.
#[cfg(target_os = "linux")]
#[test]
fn closed_files() {
    let pipe = in_a_file("mkfifo $file; exec 3<>$file 4>$file 3<&-; base62_cli <<<'enc 5' >&4");
    for (line, error) in [
        ("base62_cli <&-", "read failed"),
        ("base62_cli >&- <<<'enc 5'", "write failed"),
        (&pipe, "write failed"),
    ] {
        if is_other() {
            fails(line, error);
        } else {
            prints(line, "");
        }
    }
}
