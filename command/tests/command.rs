//! The command: what it prints, what it writes to standard error, and its status.

mod shell;

use shell::{ends, in_a_file, is_installed, prints, run, sides};

const NO_NUMBER: &str = "Not a decimal number below 2^128";

/// The input is invalid: it gives an empty line.
#[track_caller]
fn rejects(line: &str, error: &str) {
    ends(line, 1, "\n", &format!("base62: {error}\n"));
}

/// The error is all that it writes.
#[track_caller]
fn fails(line: &str, error: &str) {
    ends(line, 1, "", &format!("base62: {error}\n"));
}

/// The arguments are rejected before anything is read or written. The error has a hint of its own, or the usual one.
#[track_caller]
fn is_wrong(arguments: &str, error: &str) {
    let usual = ": try base62 --help";
    let hint = if error.contains(": ") { "" } else { usual };
    let line = format!("{{ base62 {arguments}; status=$?; cat; exit $status; }} <<<unread");
    ends(&line, 2, "unread\n", &format!("base62: {error}{hint}\n"));
}

#[test]
fn inputs() {
    // Standard input is not read.
    let line = "base62 encode 0 61 62 $(printf %060d 7) <<<5";
    prints(line, "0\nz\n10\n7\n");
    prints("base62 decode -xw4 00LZ 0000", "539\n0\n");
    prints("printf '1337\\n61' | base62 encode --", "LZ\nz\n");
    prints("base62 encode <&-", "");
    // Blanks about a number, as `wc -l`, `uniq -c` and `cut` of some systems write them.
    prints(r"printf ' \t 1337\t\n61  \r\n' | base62 encode", "LZ\nz\n");
    prints("base62 encode -x ' 0x539\t'", "LZ\n");
    prints("base62 encode -uxw4 0 0XfF", "0000\n0047\n");
    // The empty line stands in the place of the result.
    ends("base62 range -w 1 0 00 z 2>&-", 1, "0 0\n\n61 61\n", "");
    // Empty inputs that are kept.
    prints(r"printf '1337\n\n\r\n61' | base62 encode -e", "LZ\n\n\nz\n");
    prints("base62 decode --keep-empty LZ '' z", "1337\n\n61\n");
    // Without `--`, a line that begins with a hyphen is an option. It makes the command read the other lines.
    let line = r#"printf '%s\n' LZ -c z | while read -r id; do base62 decode "$id"; done"#;
    prints(line, "1337\n61\n");
}

/// A read takes 32,768 bytes.
#[test]
fn a_first_line_about_the_length_of_a_read() {
    let error = "base62: line 3: !: Encoded input contains the invalid byte b'!' at index 0\n";
    for zeros in 32_760..=32_770 {
        for end in [r"\n", r"\r\n"] {
            let line = format!("printf '%0{zeros}dLZ{end}z{end}!' 0 >$file; base62 decode <$file");
            ends(&in_a_file(&line), 1, "1337\n61\n\n", error);
        }
    }
}

#[test]
fn invalid_inputs() {
    let table = r"
        encode '13 37' -> 13 37: Not a decimal number below 2^128
        encode -e ' ' ->  : Not a decimal number below 2^128
        encode $'5\n' -> 5\n: Not a decimal number below 2^128
        encode $'5\r' -> 5\r: Not a decimal number below 2^128
        encode -x '' -> '': Not 1 to 32 hexadecimal digits
        encode -x 0x -> 0x: Not 1 to 32 hexadecimal digits
        encode -x g -> g: Not 1 to 32 hexadecimal digits
        encode -x +5 -> +5: Not 1 to 32 hexadecimal digits
        encode -x 0x0x5 -> 0x0x5: Not 1 to 32 hexadecimal digits
        encode -x $(printf %033d 0) -> 000000000000000000000000000000000: Not 1 to 32 hexadecimal digits
        encode -u $'\xff' -> \xff: Not a UUID
        decode ' LZ' ->  LZ: Encoded input contains the invalid byte b' ' at index 0
        decode -e <<<- -> line 1: -: Encoded input contains the invalid byte b'-' at index 0
        decode <<<'' -> line 1: '': Encoded input is an empty string
        decode -w2 <<<'' -> line 1: '': Encoded input has 0 bytes, not 2
        decode -w2 $'\xc3\xa9L' -> \xc3\xa9L: Encoded input has 3 bytes, not 2
        decode -w18446744073709551617 0 -> 0: Encoded input has 1 byte, not 18446744073709551615
        range 'L ' -> L : Encoded input contains the invalid byte b' ' at index 1
        encode -u - -> -: Not a UUID: try base62 encode <FILE
        decode - -> -: Encoded input contains the invalid byte b'-' at index 0: try base62 decode <FILE
        range - -> -: Encoded input contains the invalid byte b'-' at index 0: try base62 range <FILE
        encode ids.txt -> ids.txt: Not a decimal number below 2^128: try base62 encode <FILE
        encode -u ./ids -> ./ids: Not a UUID: try base62 encode <FILE
        decode ids.txt -> ids.txt: Encoded input contains the invalid byte b'.' at index 3: try base62 decode <FILE
        encode <<<ids.txt -> line 1: ids.txt: Not a decimal number below 2^128
        encode 0x539 -> 0x539: Not a decimal number below 2^128: try --hex
        encode 1,337 -> 1,337: Not a decimal number below 2^128: try the digits alone
        encode 1_337 -> 1_337: Not a decimal number below 2^128: try the digits alone
        encode $'1337\'' -> 1337\': Not a decimal number below 2^128: try the digits alone
        encode ١٣ -> \xd9\xa1\xd9\xa3: Not a decimal number below 2^128: try the digits 0 to 9
        encode -- -5 -> -5: Not a decimal number below 2^128: numbers are not negative
        encode -x $uuid -> 017f22e2-79b0-7cc3-98c4-dc0c0c07398f: Not 1 to 32 hexadecimal digits: try --uuid
        range $uuid -> 017f22e2-79b0-7cc3-98c4-dc0c0c07398f: Encoded input contains the invalid byte b'-' at index 8: try base62 encode --uuid
        decode < <(printf 'LZ\r') -> line 1: LZ\r: Encoded input contains the invalid byte b'\r' at index 2";
    for (arguments, error) in sides(table) {
        let uuid = "uuid=017f22e2-79b0-7cc3-98c4-dc0c0c07398f";
        rejects(&format!("{uuid}; base62 {arguments}"), error);
    }
    // The results for all others are printed, in order.
    let mixed =
        format!("LZ\nbase62: line 2: x: {NO_NUMBER}\n\nbase62: line 3: '': {NO_NUMBER}\n\nz\n");
    let line = r"printf '1337\nx\n\n61' | base62 encode 2>&1";
    ends(line, 1, &mixed, "");
}

/// A message shows an input up to 100 bytes, and without what would control a terminal.
#[test]
fn inputs_in_messages() {
    let (long, cut) = ("x".repeat(101), format!("{}..", "x".repeat(100)));
    let too_large = u128::MAX.to_string().replace("1455", "1456");
    let mut inputs = vec![(r"\e[2J", r"\x1b[2J"), (&long, &cut)];
    inputs.extend([&long[1..], &too_large, r"\xff", r"\xef\xbb\xbf1"].map(|input| (input, input)));
    inputs.extend(["+5", "5.0", "1e3"].map(|input| (input, input)));
    for (input, shown) in inputs {
        let error = format!("{shown}: {NO_NUMBER}");
        rejects(&format!("base62 encode -- $'{input}'"), &error);
        let error = format!("line 1: {error}");
        rejects(&format!("base62 encode <<<$'{input}'"), &error);
    }
}

#[test]
fn options() {
    for option in ["-w11", "-w 11", "--width=11", "--width 11", "-w9 -w11"] {
        prints(&format!("base62 encode {option} 5"), "00000000005\n");
        prints(&format!("base62 encode 5 {option}"), "00000000005\n");
        prints(&format!("base62 {option} encode 5"), "00000000005\n");
    }
    for option in ["--alternative", "-A $letters -a"] {
        prints(&format!("base62 encode {option} 1337"), "lz\n");
    }
    for option in "-A$letters|-a -A $letters|--alphabet=$letters|--alphabet $letters".split('|') {
        prints(&format!("base62 encode {option} 1337"), "LZ\n");
    }
    let uuid = "00000000-0000-0000-0000-000000000539";
    prints("base62 decode -ca --uuid lz", &format!("{uuid}\n"));
    prints(&format!("base62 encode -uaw5 {uuid}"), "000lz\n");
    prints("base62 encode --alphabet==${letters:1} 0", "=\n");
    prints("base62 encode -A \" ${letters:1}\" -w2 5", " 5\n");
    // Letters and texts may begin as options do.
    prints("base62 encode -A \"-${letters:1}\" -w3 -- 5", "--5\n");
    let line = "base62 decode -A \"-${letters:1}\" -- --5 -- -";
    prints(line, "5\n0\n0\n");
}

#[test]
fn help() {
    for name in ["", "encode", "decode", "range"] {
        let (_, text, _) = run(&format!("base62 {name} --help"));
        for asked in ["--help", "-h", "--help --nope", "-ah"] {
            prints(&format!("base62 {name} {asked}"), &text);
        }
        for asked in ["-h -w 4", "help", "help help", "-a help", "help -h"] {
            prints(&format!("base62 {asked} {name}"), &text);
        }
        // Its examples.
        assert!(text.contains("\n  $ "));
        for example in text.split("\n  $ ").skip(1) {
            let (line, rest) = example.split_once("\n  ").unwrap();
            prints(line, &format!("{}\n", rest.lines().next().unwrap()));
        }
    }
    // README has the names of the options.
    let listed = run("base62 help; base62 help decode").1;
    let readme = include_str!("../README.md").lines();
    for row in readme.filter(|row| row.starts_with("| `-")) {
        let names: Vec<_> = row.split('`').skip(1).step_by(2).take(2).collect();
        assert!(listed.contains(&format!("\n  {}  ", names.join(", "))));
    }
    let version = format!("base62 {}\n", env!("CARGO_PKG_VERSION"));
    for asked in ["-V", "--version", "encode --version"] {
        prints(&format!("base62 {asked}"), &version);
    }
}

#[test]
fn wrong_arguments() {
    let table = r"
        --nope -> There is no option --nope
        encode --nope=5 -> There is no option --nope
        encode -az -> There is no option -z
        -$'\xff' -> There is no option -\xff
        nope -> There is no subcommand nope
        nope -h -> There is no subcommand nope
        help nope encode -> There is no subcommand nope
        --help nope -> There is no subcommand nope
        -h nope --nope -> There is no subcommand nope
        '' -> There is no subcommand ''
        - -> There is no subcommand -
        -- --help -> There is no subcommand --help
        $'\xff' -> There is no subcommand \xff
         -> No subcommand is given
        -- -> No subcommand is given
        encode -c 5 -> Subcommand encode has no option --canonical
        decode -c -w 5 -> Subcommand decode takes --canonical or --width, not both
        range -aux 5 -> Subcommand range has no option --uuid
        encode -w -> Option -w needs a value
        encode --alphabet -> Option --alphabet needs a value
        encode -w '' 5 -> A width is an integer of 1 or more, not ''
        encode -w $'\xff' -> A width is an integer of 1 or more, not \xff
        encode -w=5 5 -> A width is an integer of 1 or more, not =5
        encode -w -5 5 -> A width is an integer of 1 or more, not -5
        range --width=00 5 -> A width is an integer of 1 or more, not 00
        --help=5 -> Option --help takes no value
        encode --uuid= 5 -> Option --uuid takes no value
        encode -A alternative -> For this alphabet there is --alternative
        encode -A standard -> For this alphabet no option is needed
        encode -A '' -> Alphabet has 0 characters, not 62
        encode -A 5 -> Alphabet has 1 character, not 62
        encode -A ${letters:1} -> Alphabet has 61 characters, not 62
        encode -A ${letters:0:61}0 -> Alphabet repeats the byte b'0' at index 61
        encode -A ${letters:1}$'\x1f' -> Alphabet has a character that is not printable ASCII
        encode -A ${letters:1}$'\x7f' -> Alphabet has a character that is not printable ASCII
        enc 5 -> There is no subcommand enc: try base62 encode
        Encoed 5 -> There is no subcommand Encoed: try base62 encode
        1337 -> There is no subcommand 1337: try base62 encode
        dec LZ -> There is no subcommand dec: try base62 decode
        ranges L -> There is no subcommand ranges: try base62 range
        encode -5 -> There is no option -5: numbers are not negative";
    for (arguments, error) in sides(table) {
        is_wrong(arguments, error);
    }
}

/// The result for a line is printed before the next line can be read.
#[test]
fn a_slow_pipe() {
    let line = r#"coproc base62 encode
        for part in '1337\n' '6' '1\n'; do
            printf "$part" >&${COPROC[1]}
            [[ $part = 6 ]] || { read -t 20 -u ${COPROC[0]} text; echo $text; }
        done"#;
    prints(line, "LZ\nz\n");
}

const ALL: [&str; 5] = ["encode 5", "encode <<<5", "range 5", "--help", "--version"];

#[cfg(target_os = "linux")]
#[test]
fn a_full_device_and_a_folder() {
    for arguments in ALL {
        fails(&format!("base62 {arguments} >/dev/full"), "Write failed");
    }
    fails("base62 decode </", "Read failed");
    // Only the status reports it then.
    ends("base62 encode x 2>/dev/full", 1, "\n", "");
    // A file that takes 512 bytes, which end within a write.
    let line = "base62 encode $(seq 350) >$file; status=$?; stat -c %s $file; exit $status";
    let line = in_a_file(&format!("set -o posix; trap '' XFSZ; ulimit -f 1; {line}"));
    ends(&line, 1, "512\n", "base62: Write failed\n");
}

#[test]
fn a_closed_pipe() {
    for arguments in ALL {
        let line = format!("mkfifo $file; exec 3<>$file 4>$file 3<&-; base62 {arguments} >&4");
        prints(&in_a_file(&line), "");
    }
}

/// What a terminal shows when it runs a line, whose input it gets from a redirection.
#[cfg(target_os = "linux")]
fn at_terminal(line: &str, input: &str) -> String {
    let line = line.replace('\'', r"'\''");
    let line = format!("SHELL=/bin/bash script -qec '{line}' /dev/null {input}");
    run(&line).1
}

#[cfg(target_os = "linux")]
#[test]
fn a_terminal() {
    if !is_installed("script") {
        return;
    }
    let help = "base62_cli: It replies to lines such as `enc 1337` and `dec LZ`: try base62_cli --help\r\n";
    // A terminal shows what is typed, too.
    let shown = at_terminal("base62_cli", "<<<'enc 1337'");
    assert!(shown.contains(help) && shown.ends_with("LZ\r\n"), "{shown}");
    let shown = at_terminal("base62 encode", "<<<1337");
    let help = "base62: It reads lines such as `1337`: try base62 encode --help\r\n";
    assert!(shown.contains(help) && shown.ends_with("LZ\r\n"), "{shown}");
    // From here on the output alone is a terminal.
    assert_eq!(at_terminal("base62_cli </dev/null", "</dev/null"), "");
    // Each result is a write, which Linux counts.
    let line = r#"mkfifo $file
        base62 encode <$file & exec 3>$file; printf '1\n2\n3\n' >&3
        for _ in {1..100}; do grep -q 'syscw: 3' /proc/$!/io && break; sleep .1; done
        grep syscw /proc/$!/io"#;
    let shown = at_terminal(&in_a_file(line), "</dev/null");
    assert_eq!(shown, "1\r\n2\r\n3\r\nsyscw: 3\r\n");
}

/// The memory of one line serves them all, and results are printed before all is read.
#[cfg(target_os = "linux")]
#[test]
fn bounded_memory() {
    let zeros = r"head -c 10000000 /dev/zero | tr '\0' 0";
    let lines = format!("for _ in 1 2 3; do {zeros}; echo '!'; done");
    let error = "Encoded input contains the invalid byte b'!' at index 10000000";
    let error = |line| format!("base62: line {line}: {}..: {error}\n", "0".repeat(100));
    let errors = [1, 2, 3].map(error).concat();
    let line = format!("{lines} | (ulimit -v 41000; base62 decode)");
    ends(&line, 1, "\n\n\n", &errors);
    for numbers in ["$(seq 2000)", "< <(seq 2000)"] {
        let line = format!("(ulimit -v 16384; base62 encode -w 10000 {numbers}) | wc -c");
        prints(&line, "20002000\n");
    }
    let all = format!("0 {}\n", u128::MAX);
    let line = "(echo 1337; exec head -c 200000000 /dev/zero) 2>/dev/null | (ulimit -v 65536; exec base62 encode)";
    ends(line, 1, "LZ\n", "base62: Out of memory\n");
    for width in ["100000000", "18446744073709551615", "18446744073709551616"] {
        let line = format!("(ulimit -v 65536; base62 encode -w {width} 5)");
        fails(&line, "Out of memory");
    }
    // So wide a text has zeros in front of all its letters.
    prints("base62 range -w 18446744073709551616 0", &all);
}
