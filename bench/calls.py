#!/usr/bin/env python3
"""Times the packages for Python and SQL and the command: see run. `calls.py draw KIND` prints strings of random numbers."""

import random
import subprocess
import sys
from contextlib import suppress
from importlib import import_module
from importlib.metadata import version
from pathlib import Path
from timeit import timeit
from uuid import UUID

CHARACTERS = "0123456789ABCDEFGHIJKLMNOPQRSTUVWXYZabcdefghijklmnopqrstuvwxyz"
DIGITS = {character: digit for digit, character in enumerate(CHARACTERS)}
# Whose code, how it encodes and decodes numbers, and how UUIDs.
PYTHON = """
base62|base62.encode(n)|base62.decode(t)|base62.encode_uuid_key(n)|base62.decode_uuid_key(t)
gmpy2|gmpy2.digits(n, 62)|int(gmpy2.mpz(t, 62))|gmpy2.digits(n.int, 62).rjust(22, "0")|UUID(int=int(gmpy2.mpz(t, 62)))
shortuuid|||shortuuid.encode(n)|shortuuid.decode(t)
a plain loop|encode(n)|decode(t)|encode(n.int).rjust(22, "0")|UUID(int=decode(t))
"""
# How a database loads the functions, the bytes of a string, hexadecimal digits, and the parts of the functions' names: for
# bigints none, for greater numbers, and for UUIDs. Debian 12's SQLite has no unhex.
SQL = """
SQLite|.load sql/sqlite/base62|base62_decode_blob(text)|hex(bytes)||_uuid _blob|_uuid_key _blob_key
PostgreSQL|SET max_parallel_workers_per_gather = 0;|uuid_send(base62_decode_uuid(text))|encode(bytes, 'hex')|decode(digits, 'hex')|_numeric _numeric|_uuid_key _uuid_key
DuckDB|LOAD 'sql/duckdb/base62.duckdb_extension';|unhex(replace(base62_decode_uuid(text)::VARCHAR, '-', ''))|hex(bytes)|unhex(digits)| _uhugeint|_uuid_key _uuid_key
"""


def encode(number):
    text = ""
    while number or not text:
        number, digit = divmod(number, 62)
        text = CHARACTERS[digit] + text
    return text


def decode(text):
    number = 0
    for character in text:
        number = number * 62 + DIGITS[character]
    return number


def draw(kind):
    bits = {"mixed": random.randint(1, 128), "UUID": 128}.get(kind) or int(kind)
    return encode(random.getrandbits(bits)).rjust(22 if kind == "UUID" else 1, "0")


def codes():
    """Whose code, and expressions that encode and decode all values."""
    if package == "command":
        yield "base62", "run('encode')", "run('decode')"
    elif package == "Columns":
        key, uuid = ("_uuid_key", "_uuid_key") if kind == "UUID" else ("", "" if kind in ("40", "64") else "_uuid")
        yield "base62", f"columns.encode{key}(values)", f"columns.decode{uuid}(texts{'' if uuid else ', type=pyarrow.uint64()'})"
        comprehension = f"pyarrow.array([base62.encode{key}(n) for n in values.to_pylist()])"
        yield "a comprehension", comprehension, f"[base62.decode{uuid}(t) for t in texts.to_pylist()]"
    elif package == "Python":
        for code, *calls in (row.split("|") for row in PYTHON.strip().split("\n")):
            encodes, decodes = calls[2:] if kind == "UUID" else calls[:2]
            if encodes and (code in globals() or code == "a plain loop"):
                yield code, f"[{encodes} for n in values]", f"[{decodes} for t in texts]"
    else:
        _, _, _, hexadecimal, unhex, *parts = row
        encoder, decoder = ["", ""] if kind == "40" else parts[kind == "UUID"].split(" ")
        yield "base62", f"run('base62_encode{encoder}(number)')", f"run('base62_decode{decoder}(text)')"
        yield "hex", f'run("{hexadecimal}")', f'run("{unhex}")' if unhex else ""


def run(call):
    """Runs the command, or a call for each row of a database's table."""
    if package == "command":
        options = ["-uw22"] if kind == "UUID" else []
        subprocess.run(["out/bin/base62", call, *options], stdin=open(call), stdout=subprocess.DEVNULL, check=True)
        return
    shell.stdin.write(f"SELECT count({call}) FROM code;\n")
    shell.stdin.flush()
    assert int(shell.stdout.readline()) == count, call


if sys.argv[1] == "draw":
    print(*(draw(sys.argv[2]) for _ in range(10000)), sep="\n")
    sys.exit()
package, *client, kind, rounds = sys.argv[1:]
texts = sys.stdin.read().split()
values = [UUID(int=decode(text)) if kind == "UUID" else decode(text) for text in texts]
copies, rounds = (1, int(rounds)) if package in ("Python", "Columns") else (5 * int(rounds), 5)
count = copies * len(texts)
if copies == 1:
    import base62

    for name in ("gmpy2", "shortuuid", "pyarrow"):
        with suppress(ImportError):
            globals()[name] = import_module(name)
            print(name, version(name))
if package == "Columns":
    from base62 import columns

    texts = pyarrow.array(texts)
    values = columns.decode_uuid(texts) if kind not in ("40", "64") else columns.decode(texts, type=pyarrow.uint64())
elif package == "command":
    for call, lines in ("encode", values), ("decode", texts):
        Path(call).write_text("".join(f"{line}\n" for line in lines) * copies)
elif client:
    row = next(row for row in (line.split("|") for line in SQL.split("\n")) if row[0] == package)
    shell = subprocess.Popen(["stdbuf", "-oL", *client], stdin=subprocess.PIPE, stdout=subprocess.PIPE, text=True)
    number = next(codes())[2].split("'")[1]
    given = ", ".join(f"('{text}')" for text in texts)
    shell.stdin.write(f"{row[1]}\nCREATE TEMP TABLE code AS WITH given(text) AS (VALUES {given}), value AS (SELECT text,")
    shell.stdin.write(f"{number} AS number, {row[2]} AS bytes FROM given) SELECT text, number, bytes, {row[3]} AS digits")
    shell.stdin.write(f" FROM value, generate_series(1, {copies});\n")
for _ in range(rounds):
    for code, *calls in codes():
        scope = globals() if code != "shortuuid" else globals() | {"texts": eval(calls[0])}
        assert client or package == "command" or [*map(str, eval(calls[1], scope))] == [*map(str, values)], code
        for call, expression in zip(("encode", "decode"), calls):
            if expression:
                print(package, kind, call, code, timeit(expression, globals=scope, number=1) * 1e9 / count, sep="\t")
