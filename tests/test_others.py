#!/usr/bin/env python3
"""Compares other code for base 62 with the values that all tests read.

    tests/test_others.py gmpy2 | go | node-base62 | ruby-base62 | shortuuid
"""

import subprocess
import sys
import tempfile
from pathlib import Path

ROWS = [line.split("\t") for line in Path(__file__).with_name("values.tsv").read_text().splitlines()]
# Each prints, for each number of a line, its string, and the number that this decodes to.
GMPY2 = """import gmpy2, sys
for line in sys.stdin:
    text = gmpy2.digits(int(line), 62)
    print(text, gmpy2.mpz(text, 62))
"""
GO = """package main

import ("bufio"; "fmt"; "math/big"; "os")

func main() {
	for lines := bufio.NewScanner(os.Stdin); lines.Scan(); {
		number, _ := new(big.Int).SetString(lines.Text(), 10)
		back, _ := new(big.Int).SetString(number.Text(62), 62)
		fmt.Println(number.Text(62), back)
	}
}
"""
NODE = """const base62 = require('/usr/share/nodejs/base62');
for (const line of require('fs').readFileSync(0, 'ascii').trim().split('\\n')) {
  const text = base62.encode(Number(line));
  console.log(text, base62.decode(text));
}
"""
RUBY = 'text = Base62.encode($_.to_i); puts "#{text} #{Base62.decode(text)}"'
SHORTUUID = """import shortuuid, string, sys, uuid
keys = shortuuid.ShortUUID(alphabet=string.digits + string.ascii_uppercase + string.ascii_lowercase)
for line in sys.stdin:
    text = keys.encode(uuid.UUID(int=int(line)))
    print(text, keys.decode(text).int)
"""
# The command, the alphabet, the end of the numbers that it takes, and the width of its strings.
OTHERS: dict[str, tuple[list[str], str, int, int]] = {
    "gmpy2": (["python3", "-c", GMPY2], "standard", 2**128, 0),
    "go": (["go", "run", "main.go"], "alternative", 2**128, 0),
    "node-base62": (["node", "-e", NODE], "alternative", 2**53, 0),
    "ruby-base62": (["ruby", "-rbase62", "-ne", RUBY], "standard", 2**128, 0),
    "shortuuid": (["python3", "-c", SHORTUUID], "standard", 2**128, 22),
}


def main(name: str) -> None:
    command, alphabet, end, width = OTHERS[name]
    texts = {row[2]: row[3].rjust(width, "0") for row in ROWS if row[:2] == ["encode", alphabet] and int(row[2]) < end}
    assert len(texts) > 100
    with tempfile.TemporaryDirectory() as folder:
        Path(folder, "main.go").write_text(GO)
        environment = {"HOME": folder, "PATH": "/usr/bin:/bin"}
        printed = subprocess.check_output(command, cwd=folder, env=environment, input="\n".join(texts), text=True)
    if printed.splitlines() != [f"{text} {number}" for number, text in texts.items()]:
        raise SystemExit(f"{name} has other strings than those of the {alphabet} alphabet")
    print(f"{name}: {len(texts)} strings are those of the {alphabet} alphabet")


if __name__ == "__main__":
    main(sys.argv[1])
