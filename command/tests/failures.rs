//! Each allocation, read and write of the programs fails in turn. `FAIL_CALL` names the library that is preloaded for
//! this, which `scripts/check-command` compiles of `.ci/fail_call.c`.
#![cfg(target_os = "linux")]

mod shell;

use shell::{in_a_file, run};
use std::env;

/// Each failure is reported, and the output ends before it. The runtime of Rust aborts if one of its own allocations
/// fails, which come before the first read. `printf` gets the arguments in `input`: lines for two reads of a file.
fn fail_in_turn(command: &str, input: &str, output: &str, status: i32) {
    let calls = [
        ("allocation", 30, ": out of memory\n", 3..9),
        ("read", 8, ": read failed\n", 3..4),
        ("write", 8, ": write failed\n", 2..4),
    ];
    for (call, last, message, counts) in calls {
        let mut count = 0;
        for number in 1..=last {
            let fails = format!("LD_PRELOAD=$FAIL_CALL FAILING={call} REFUSED={number}");
            let line = format!("printf {input} >$file; {fails} {command} <$file");
            let (ended, written, said) = run(&in_a_file(&line));
            if said.to_lowercase().ends_with(message) {
                assert_eq!(ended, Some(1), "{said}");
                assert!(output.starts_with(&written), "{written}");
                count += 1;
            } else if call == "allocation" && count == 0 && said.contains("memory allocation of") {
                assert_eq!(written, "", "{said}");
            } else {
                assert_eq!((written.as_str(), ended), (output, Some(status)), "{said}");
            }
        }
        assert!(counts.contains(&count), "{command}: {call}: {count}");
    }
}

#[test]
fn each_call_fails() {
    if env::var_os("FAIL_CALL").is_none() {
        println!("left out: failing calls, of which FAIL_CALL names the library");
        return;
    }
    fail_in_turn("base62 encode", r"'1337\nx\n%040000d' 61", "LZ\n\nz\n", 1);
    fail_in_turn("base62 encode -w2", r"'0\n%040000d' 1337", "00\nLZ\n", 0);
    let zeros = "00000000-0000-0000-0000-000000000";
    let uuids = format!("{zeros}539\n{zeros}000\n");
    fail_in_turn("base62 decode -u", r"'LZ\n%040000d' 0", &uuids, 0);
    let input = r"'LZ\n-\n%040000dz\n' 0";
    fail_in_turn("base62 decode", input, "1337\n\n61\n", 1);
    // Each part of the first line needs more memory.
    let input = r"'000000000000000000q1o\n%040000d' 0";
    fail_in_turn("base62 range", input, "12400000 12400061\n\n", 1);
    let input = r"'enc 1337\nenc x\nenc %040000d' 61";
    fail_in_turn("base62_cli", input, "LZ\nfault: not a number\nz\n", 0);
}
