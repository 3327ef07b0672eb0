#!/usr/bin/env python3
"""Compares docs/CALLS.md with what each package exports: every name is there, in tests and in READMEs, and no other one."""

import ast
import builtins
import re
from collections import defaultdict
from pathlib import Path

TOP = Path(__file__).resolve().parent.parent
# What the name of a function for another alphabet has besides, in Rust and C.
ALPHABETS = re.compile(r"_(alternative|alt|with)(?=_|$)")
# The tests and pages that name all of a language, its comments, and what is before a name that is not an attribute.
BARE = r"(?<![\w.])"
NAMING = {
    "Rust": (["rust/tests/*.rs"], "//.*", BARE),
    "C": (["c/tests/values.c"], r"/\*(?s:.*?)\*/", BARE),
    "Python": (["python/tests/test_*.py", "python/README.md", "python/COLUMNS.md"], "#.*", '["`]'),
    "JavaScript": (["js/tests/calls.mjs", "js/README.md"], "//.*", BARE),
}
# Pages and types, and the languages whose names they have. In C and SQL these have a prefix.
SQL = ["SQLite", "DuckDB", "PostgreSQL"]
PAGES = {
    **dict.fromkeys(["README.md", "command/README.md", "docs/CALLS.md", "docs/D[!E]*.md", "docs/DEC*.md"], [*NAMING, *SQL]),
    **dict.fromkeys(["js/README.md", "js/index.d.cts", "js/tests/types.ts"], ["JavaScript"]),
    **{"c/README.md": ["C"], "python/*.md": ["Python"], "rust/README.md": ["Rust"], "sql/*.md": SQL},
}
# In the other pages a name before a parenthesis is a function, and so is the name of an error.
CALL = r"(?<![\w.:/$'])(?:base62\.|columns\.|b\.)?([A-Za-z]\w*)\(|\b([A-Z]\w+Error)\b"
# What languages and other libraries have.
OTHERS = """
    BigInt CAST DECIMAL Ok Some String UUID constructor decimal128 derive fixed_size_binary require to_numpy to_pylist validate
""".split()


def text(*paths: str) -> str:
    return "".join(file.read_bytes().decode() for path in paths for file in sorted(TOP.glob(path)))


def all_of(module: str) -> list[str]:
    lists = re.findall(r"(?m)^__all__ \+?= (\[[^]]*\])$", text(f"python/base62/{module}.py"))
    return [name for names in lists for name in ast.literal_eval(names)]


def functions_of(path: str) -> set[str]:
    """Those of a table in C, whose macro DECODERS names two for each form."""
    names = re.findall(r'\{"(base62_\w+)",', text(path))
    forms = re.findall(r'DECODERS\("(\w*)"', text(path))
    return {*names, *(f"base62_{verb}{form}" for form in forms for verb in ("decode", "try_decode"))}


def exported() -> dict[str, set[str]]:
    """The names by the languages of the page."""
    rust = text("rust/src/lib.rs", "rust/src/generated/mod.rs")
    rust = re.findall(r"\w+", "".join(re.findall(r"\npub (?:use (?:\w+::)+)?([^;]*;)", rust)))
    c = re.findall(r"\b(base62_\w+)\(", re.sub(r"(?s)/\*.*?\*/", "", text("c/base62.h")))
    python = text("python/base62/_base62.pyi", "python/base62/__init__.py")
    python = re.findall(r"(?m)^(?:def |class |(?=\w+ = ))([A-Za-z]\w*)", python)
    javascript = " ".join(re.findall(r"(?m)^export \{(.*)\}", text("js/index.js")))
    return {
        "Rust": {ALPHABETS.sub("", name) for name in rust},
        "C": {ALPHABETS.sub("", name) for name in c},
        "Python": {*python, *all_of("__init__"), *(f"columns.{name}" for name in all_of("columns"))},
        "JavaScript": set(re.findall(r"\w+", javascript)),
        "SQLite": functions_of("sql/sqlite/functions.c"),
        "DuckDB": functions_of("sql/duckdb/functions.c"),
        "PostgreSQL": set(re.findall(r"(?:CREATE FUNCTION |\(')(base62_\w+)", text("sql/postgresql/*.sql"))),
    }


def rows_of(path: str, head: str) -> list[list[str]]:
    """The cells of each row, and of the titles, of the table that begins with this field."""
    rows = re.findall(rf"(?m)^\| {head} \|.*\n(?:\|.*\n)+", text(path))[0].splitlines()
    return [[cell.strip() for cell in row.split("|")[1:-1]] for row in rows if row[:2] != "|-"]


def names_in(*cells: str) -> set[str]:
    return set(re.findall(r"`([\w.]+)[`(]", " ".join(cells)))


def listed_sql() -> dict[str, set[str]]:
    """The names of sql/README by database: of its encoders and decoders with each part that the database has in place of
    _uuid, of the variants of decoders, and of the other functions, which are in all unless one is named."""
    kinds = {title: names_in(*cells) for title, *cells in zip(*rows_of("sql/README.md", "strings"))}
    titles, *parts = rows_of("sql/README.md", "part")
    lists: dict[str, set[str]] = {database: set() for database in titles[1:]}
    (variant,) = re.findall(r"Each decoder has a variant with `(\w+)`", text("sql/README.md"))
    for part, *cells in parts:
        ending = "".join(re.findall(r"^`(_\w+)`$", part))
        for database, cell in zip(lists, cells):
            names = kinds["decoder"] | (set() if cell.startswith("decoders: ") else kinds["encoder"]) if cell else set()
            names = {name.replace("_uuid", ending) for name in names}
            lists[database] |= names | {name.replace("decode", f"{variant}decode") for name in names if "decode" in name}
    for functions, returned in rows_of("sql/README.md", "other functions")[1:]:
        for database in [database for database in lists if returned.startswith(f"{database}: ")] or lists:
            lists[database] |= names_in(functions)
    return lists


def listed() -> dict[str, set[str]]:
    """The names of the page, and of SQL those of its README, which has more."""
    names = defaultdict[str, set[str]](set)
    for language, line in re.findall(r"(?m)^- \*\*(\w+)\*\*(.*)$", text("docs/CALLS.md")):
        names[language] |= set(re.findall("`(.*?)`", line))
    sql = listed_sql()
    if differing := names.pop("SQL") ^ set.intersection(*sql.values()):
        raise SystemExit(f"only one of docs/CALLS.md and sql/README.md has in all three databases: {' '.join(sorted(differing))}")
    return names | sql


def used(path: str, comments: str, before: str) -> set[str]:
    """The names in files that can be the package's. COLUMNS.md names functions of columns without the module."""
    names = re.findall(rf"(?:\bbase62\.|\b(columns\.)|{before})(\w+)", re.sub(comments, "", text(path)))
    return {("columns." if "COLUMNS" in path else module) + name for module, name in names}


def column(path: str, title: str) -> str:
    """The cells below a title, in all tables of a page."""
    tables = re.findall(rf"(?m)^\|((?:[^|\n]*\|)*?) {title} \|.*\n\|[-|]+\n((?:\|.*\n)+)", text(path))
    return "".join(row.split("|")[before.count("|") + 1] for before, rows in tables for row in rows.splitlines())


def unknown(path: str, exports: set[str]) -> set[str]:
    """The names of functions and errors in a page or a file of types that are neither exported nor defined there, nor of
    a language or another library."""
    blocks = re.findall(r"(?ms)^```[^\n]*\n(.*?)^```$|`([^`\n]+)`", text(path))
    code = "\n".join(map("".join, blocks)) if path.endswith(".md") else text(path)
    names = re.findall(r"\bbase62_\w+", code)
    if not path.startswith(("c/", "sql/")):
        names += [*map("".join, re.findall(CALL, code)), *re.findall(r"`(\w+)[`(]", column(path, "function(?: or class)?"))]
    types = re.findall(r"(?m)(?:^} |CREATE DOMAIN )(\w+)", text("c/base62.h", "sql/postgresql/*.sql"))
    defined = map("".join, re.findall(r"\b(?:def|fn|class|struct) (\w+)|\b(\w+) ?=(?!=)", code))
    known = {"base62_cli", "RangeError", *OTHERS, *dir(builtins), *types, *defined, *exports}
    known |= {name.removeprefix("columns.") for name in exports}
    return {name for name in names if not {name, ALPHABETS.sub("", name)} & known}


def main() -> None:
    exports, lists = exported(), listed()
    if exports.keys() != lists.keys() or not all(exports.values()):
        raise SystemExit(f"docs/CALLS.md has lists for {', '.join(lists)}")
    errors = []
    for language, names in exports.items():
        errors += [f"{language}: {name} is exported, and not in docs/CALLS.md" for name in names - lists[language]]
        errors += [f"{language}: {name} is in docs/CALLS.md, and not exported" for name in lists[language] - names]
    for language, (paths, *syntax) in NAMING.items():
        for path in paths:
            missing = exports[language] - used(path, *syntax)
            if path.endswith(".md"):  # Functions of columns have a page of their own.
                missing = {name for name in missing if ("columns." in name) == ("COLUMNS" in path)}
            errors += [f"{language}: {name} is exported, and not used in {path}" for name in missing]
    for block in text("c/base62.h").split("\n\n"):
        if "/*" not in block:
            errors += [f"C: {name} has no comment in c/base62.h" for name in re.findall(r"\b(base62_\w+)\(", block)]
    for path, languages in PAGES.items():
        names = unknown(path, set().union(*map(exports.get, languages)))
        errors += [f"{path}: {name} is not exported" for name in names]
    if errors:
        raise SystemExit("\n".join(sorted(errors)))


if __name__ == "__main__":
    main()
