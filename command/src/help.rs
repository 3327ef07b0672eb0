// SPDX-License-Identifier: MIT
// Copyright (c) 2026 the maintainers of base62 for Rattle

//! The help. The completions read that of the installed command, `tests/page` writes the manual page from it, and a test
//! runs its examples.

pub(crate) const VERSION: &str = concat!("base62 ", env!("CARGO_PKG_VERSION"), "\n");

pub(crate) const COMMAND: &str = "\
Usage: base62 SUBCOMMAND [OPTION]... [OPERAND]...
Encodes unsigned integers below 2^128 as short strings of 0 to 9, A to Z and
a to z, or of a custom alphabet, and decodes them.

  encode [NUMBER]...     print each number as an encoded string
  decode [STRING]...     print the number that each string represents
  range [PREFIX]...      print the least and the greatest number of each prefix
  help [SUBCOMMAND]      print this help, or that of a subcommand

{options}

Without an operand, a subcommand reads the lines of standard input. For each
operand or line it prints one line, which is empty if the input is invalid.

  $ base62 encode 1337
  LZ

base62 help SUBCOMMAND lists the options of a subcommand.

Exit status:
  0  all inputs are valid
  1  an input is invalid, or a read, a write or an allocation fails
  2  an argument is invalid
";

pub(crate) const ENCODE: &str = "\
Usage: base62 encode [OPTION]... [NUMBER]...
Encodes each decimal number, or each line of standard input. Spaces and tabs
around a number are ignored. An invalid number gives an empty line.

{options}

  $ echo 1337 | base62 encode -w 4
  00LZ
  $ base62 encode -u -w 22 017f22e2-79b0-7cc3-98c4-dc0c0c07398f
  02p5oQZoHTv0zeY5yG21K3
";

pub(crate) const DECODE: &str = "\
Usage: base62 decode [OPTION]... [STRING]...
Decodes each string, or each line of standard input. An operand is a string, not
the name of a file. An invalid string gives an empty line. With -c, it accepts
exactly what encode prints, and with -w N exactly what encode -w N prints;
otherwise, strings with any number of leading zeros.

{options}

  $ base62 decode LZ
  1337
  $ base62 decode -u -w 22 02p5oQZoHTv0zeY5yG21K3
  017f22e2-79b0-7cc3-98c4-dc0c0c07398f
";

pub(crate) const RANGE: &str = "\
Usage: base62 range [OPTION]... [PREFIX]...
Prints the least and the greatest number whose string begins with the prefix,
for each prefix or each line of standard input. The strings have 22 characters,
or as many as -w says, with leading zeros. If no string begins with the prefix,
the line is empty.

{options}

  $ base62 range -w 5 000L
  1302 1363
";

/// The options of all subcommands, and of the command. The arguments are parsed by these rows.
pub(crate) const OPTIONS: &str = "\
-a, --alternative      use the alphabet 0 to 9, a to z, A to Z
-A, --alphabet CHARACTERS  use these 62 printable ASCII characters, the zero first
-w, --width N          N characters, with leading zeros; a key is -w 22
-c, --canonical        reject strings with leading zeros
-u, --uuid             encode UUIDs, or decode to UUIDs
-x, --hex              numbers are hexadecimal
-e, --keep-empty       an empty input gives an empty line, and is not an error
-h, --help             print this help, or that of a subcommand
-V, --version          print the version
";

/// A help with the rows of the options that have these letters.
pub(crate) fn with_options(help: &str, letters: &str) -> String {
    let rows = OPTIONS.lines().filter(|row| letters.contains(&row[1..2]));
    let listed: String = rows.map(|row| format!("  {row}\n")).collect();
    help.replace("{options}\n", &listed)
}
