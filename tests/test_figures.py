#!/usr/bin/env python3
"""Compares the figures of pages with what is computed here: lengths and uses of encodings, the oldest versions of other
software, and the years in which a UUID of version 7 has a shortest string of 21 characters."""

import re
from datetime import datetime, timedelta
from pathlib import Path
from string import ascii_lowercase, ascii_uppercase, digits
from urllib.parse import quote

TOP = Path(__file__).resolve().parent.parent
README = (TOP / "README.md").read_text()
ALPHABETS = {
    "base62": digits + ascii_uppercase + ascii_lowercase,
    "base64url": ascii_uppercase + ascii_lowercase + digits + "-_",
    "base58": "123456789ABCDEFGHJKLMNPQRSTUVWXYZabcdefghijkmnopqrstuvwxyz",
    "Crockford's base 32": "0123456789ABCDEFGHJKMNPQRSTVWXYZ",
    "hexadecimal": digits + "abcdef",
    "decimal": digits,
}
# What states the least version.
SOURCES = {
    "Rust": ("rust/Cargo.toml", r'rust-version = "(.*)"'),
    "C, CMake": ("c/CMakeLists.txt", r"VERSION (.*)\.\.\."),
    "CPython": ("python/pyproject.toml", r'requires-python = ">=(.*)"'),
    "Node": ("js/package.json", r'"node": ">=(.*)"'),
    **{name: ("sql/README.md", rf"{name} ([\d.]+) and later") for name in ("SQLite", "PostgreSQL", "DuckDB")},
    "pyarrow": ("python/pyproject.toml", r'"pyarrow>=([\d.]+)'),
}


def table(corner: str) -> dict[str, list[str]]:
    """The rows of README's table whose second title is this, by their first cells."""
    lines = re.search(rf"(?m)^\|[^|]*\| {corner} \|(?:.*\n\|)+.*", README)[0].splitlines()
    return {cells[0]: cells[1:] for line in lines if (cells := [cell.strip() for cell in line.strip("|").split("|")])}


def length(base: int, number: int) -> int:
    return 1 + length(base, number // base) if number >= base else 1


def says(characters: str) -> list[str]:
    """The cells of an alphabet."""
    # What a URL has as it is, a file name and CSV have too.
    is_plain = quote(characters, safe="") == characters
    lengths = ", ".join(str(length(len(characters), 2**bits - 1)) for bits in (32, 64, 128))
    answers = [[*characters] == sorted(characters), len({*characters.lower()}) == len(characters), is_plain]
    cells = [lengths, *("yes" if answer else "no" for answer in answers)]
    # What begins with a hyphen is an option of a command.
    return [*cells[:-1], "may begin with `-`"] if "-" in characters else cells


def main() -> None:
    encodings = table("base62")
    assert dict(zip(encodings[""], zip(*[*encodings.values()][2:]))) == {name: (*says(text),) for name, text in ALPHABETS.items()}
    versions = table("Rust")
    least = {name: re.search(pattern, (TOP / path).read_text())[1] for name, (path, pattern) in SOURCES.items()}
    least["C, CMake"] = f"C99, {least['C, CMake']}"
    assert dict(zip(versions[""], versions["needs at least"])) == least, least
    # The upper 48 bits of such a UUID are milliseconds since 1970.
    years = [(datetime(1970, 1, 1) + timedelta(milliseconds=62**power >> 80)).year for power in (20, 21)]
    assert f"from {years[0]} to {years[1]}" in (TOP / "docs/CALLS.md").read_text(), years


if __name__ == "__main__":
    main()
