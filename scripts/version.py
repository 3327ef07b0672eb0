#!/usr/bin/env python3
"""Sets the version everywhere: scripts/version.py X.Y.Z. Without an argument it compares each place with VERSION, and the
newest version of CHANGELOG.md.
"""

import re
import sys
from pathlib import Path

TOP = Path(__file__).resolve().parent.parent
VERSION = r"(0|[1-9][0-9]*)\.(0|[1-9][0-9]?)\.(0|[1-9][0-9]?)"


def places(version: str) -> list[tuple[str, str, str]]:
    """(file, pattern, text): the pattern matches once; its one group is replaced by the text."""
    major, minor, patch = re.fullmatch(VERSION, version).groups()
    number = str(int(major) * 10000 + int(minor) * 100 + int(patch))
    macros = {"": f'"{version}"', "_MAJOR": major, "_MINOR": minor, "_PATCH": patch, "_NUMBER": number}
    return [
        ("VERSION", r"\A(.*)\n\Z", version),
        ("rust/Cargo.toml", r'(?m)^version = "(.*)"$', version),
        ("command/Cargo.toml", r'(?m)^version = "(.*)"$', version),
        ("command/Cargo.toml", r'(?m)^base62 = .* version = "(.*)" }$', version),
        ("command/share/man/man1/base62.1", r'(?m)^\.TH .* "base62 (.*)" "User Commands"$', version),
        ("js/package.json", r'(?m)^  "version": "(.*)",$', version),
        *(("c/base62.h", rf"(?m)^#define BASE62_VERSION{name} (.*)$", value) for name, value in macros.items()),
        ("c/README.md", r"(?m)^find_package\(base62 (.*) CONFIG REQUIRED\)$", major),
        ("c/README.md", r"such as `BASE62_(\d+)`", major),
    ]


def main(arguments: list[str]) -> None:
    version = arguments[0] if arguments else (TOP / "VERSION").read_bytes().decode().removesuffix("\n")
    if len(arguments) > 1 or not re.fullmatch(VERSION, version):
        raise SystemExit(f"{' '.join(arguments) or version!r} is not a version X.Y.Z of numbers")
    texts = {name: (TOP / name).read_bytes().decode() for name, _, _ in places(version)}
    for name, pattern, value in places(version):
        matches = list(re.finditer(pattern, texts[name]))
        if len(matches) != 1 or not arguments and matches[0][1] != value:
            raise SystemExit(f"{name} has no version, or another one than VERSION: {pattern}")
        texts[name] = texts[name][: matches[0].start(1)] + value + texts[name][matches[0].end(1) :]
    newest = re.search(r"(?m)^## (.*), \d{4}-\d\d-\d\d$", (TOP / "CHANGELOG.md").read_text())
    if not arguments and (not newest or newest[1] != version):
        raise SystemExit(f"CHANGELOG.md does not begin with version {version} and its date")
    for name, text in texts.items() if arguments else ():
        (TOP / name).write_bytes(text.encode())


if __name__ == "__main__":
    main(sys.argv[1:])
