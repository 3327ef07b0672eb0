"""Tests of SQLite's functions, in the module that BASE62_SQLITE names."""

import _sqlite3
import ctypes
import itertools
import os
import re
import sqlite3
import sys
import tempfile
import unittest
from collections.abc import Callable, Iterator
from typing import Any
from urllib.parse import unquote_to_bytes
from uuid import UUID

from values import ALPHABETS, BIGINT, HEADER, KEY, OWN, SEARCHES, TEXTS
from values import Database, Error, Text, Width, arguments_by_result, bigint, calls_of, negative, rows, shown, string_of
from values import uuid, uuid_hint

if not hasattr(sqlite3.Connection, "enable_load_extension"):
    sys.exit(f"{sys.executable} can't load extensions of SQLite. Set PYTHON to one that can, such as Debian's.")

MODULE = os.environ["BASE62_SQLITE"]


def blob(number: int) -> bytes:
    return number.to_bytes(16, "big")


def uuid_text(number: int) -> str:
    return str(uuid(number))


SQLITE = Database(
    encoded=[("", bigint), ("_uuid", blob), ("_uuid", lambda number: Text(uuid_text(number).encode()))],
    decoded={"": bigint, "_uuid": uuid_text, "_blob": blob},
    wide="uuid",
    invalid_numbers={"": negative(-1, -(2**63))},
    invalid_widths=(-(2**63), 2**32 + 7, BIGINT),
)
CALLS = calls_of(SQLITE)
FUNCTIONS = arguments_by_result(CALLS)


def literal(value: Any) -> str:
    """What a message shows of a value that has another type than an argument."""
    if isinstance(value, str):
        return shown(value.encode())
    return f": x'{value[:40].hex()}{'...' * (len(value) > 40)}'" if isinstance(value, bytes) else f": {value}"


def call_of(name: str, given: tuple[Any, ...]) -> str:
    return f"base62_{name}({', '.join('CAST(? AS TEXT)' if isinstance(value, Text) else '?' for value in given)})"


class Case(unittest.TestCase):
    def setUp(self) -> None:
        self.db = sqlite3.connect(":memory:")
        self.addCleanup(self.db.close)
        self.db.enable_load_extension(True)
        self.db.load_extension(MODULE)
        self.db.enable_load_extension(False)

    def result(self, name: str, *given: Any) -> Any:
        """The result of a function, or the message of its error."""
        try:
            return self.db.execute(f"SELECT {call_of(name, given)}", given).fetchone()[0]
        except sqlite3.Error as error:
            return str(error)


class Functions(Case):
    def test_calls(self) -> None:
        """Of each function, with each count of arguments."""
        query = "SELECT substr(name, 8), narg FROM pragma_function_list WHERE name LIKE 'base62%'"
        self.assertEqual({*self.db.execute(query)}, {*FUNCTIONS, ("version", 0)}, "the second have calls in values.py")
        for name, given, result in CALLS:
            expected = f"base62: {result.message}" if isinstance(result, Error) else result
            self.assertEqual(self.result(name, *given), expected, (name, given))

    def test_two_results(self) -> None:
        """Of each function in one row: SQLite reads the first after the second call."""
        for (name, _), results in FUNCTIONS.items():
            (one, given), (other, others) = [*results.items()][:2]
            query = f"SELECT {call_of(name, given)}, {call_of(name, others)}"
            self.assertEqual(self.db.execute(query, (*given, *others)).fetchone(), (one, other), name)

    def test_version(self) -> None:
        """The one that the header has, which no index may contain."""
        self.assertIn(f'#define BASE62_VERSION "{self.result("version")}"\n', HEADER)
        self.db.execute("CREATE TABLE given (n)")
        with self.assertRaisesRegex(sqlite3.OperationalError, "^non-deterministic functions prohibited in index"):
            self.db.execute("CREATE INDEX version ON given (base62_version())")

    def test_uuids(self) -> None:
        """Strings for UUIDs, and others, in which a null byte may be."""
        mistake = "base62: the UUID is not 32 hexadecimal digits or 16 bytes"
        for field, form in rows("uuid_string"):
            given = Text(unquote_to_bytes(field))
            expected = mistake + shown(given) if form == "none" else string_of(UUID(form).int, 1)
            self.assertEqual(self.result("encode_uuid", given), expected)

    def test_hints(self) -> None:
        """Strings for an encoder of numbers, and what the functions and the cast return that its error names for them."""
        uuids = dict(rows("uuid_string"))
        borders = [["encode", str(number), "decimal"] for number in (BIGINT, BIGINT + 1)]
        for field, hint in [row[1:] for row in rows("hint") + borders if row[0] == "encode"]:
            text = Text(unquote_to_bytes(field))
            self.assertEqual(bool(uuid_hint("", text)), hint in ("uuid", "both"), text)
            digits = "; to convert digits use CAST(.. AS NUMERIC)" * (hint in ("decimal", "both"))
            for form, width, others in (("", 1, ()), ("_key", KEY, ()), ("_fixed", 30, (Width(30),))):
                expected = f"base62: the number is not an integer{uuid_hint(form, text)}{digits}{shown(text)}"
                self.assertEqual(self.result(f"encode{form}", text, *others), expected)
                for named in re.findall(r"use base62_(encode\w*)", expected):
                    self.assertEqual(self.result(named, text, *others), string_of(UUID(uuids[field]).int, width))
            if digits:
                cast = self.db.execute("SELECT CAST(CAST(? AS TEXT) AS NUMERIC)", (text,)).fetchone()[0]
                self.assertEqual(repr(cast), repr((int if int(text) <= BIGINT else float)(text)))
        blob = f"the number is not an integer; to encode a UUID use base62_encode_uuid_key: x'{'07' * 16}'"
        self.assertEqual(self.result("encode_key", b"\7" * 16), f"base62: {blob}")

    def test_types(self) -> None:
        """The errors of arguments of other types than a function accepts."""
        number = ("number is not an integer", (1337.0, "-5", "", b"", b"1" * 15, b"1" * 41))
        no_uuid = ("UUID is not 32 hexadecimal digits or 16 bytes", (1337, 1.5, "1" * 16, b"", b"1" * 15, b"1" * 17))
        for (name, _), results in FUNCTIONS.items():
            given = next(iter(results.values()))
            text = f"{'prefix' if re.match('first|last', name) else 'string'} is not text", (1337, 13.5, b"LZ", b"1" * 62)
            kinds: dict[type, Any] = {Width: ("width is not an integer", (7.0, "7", b"7")), Text: text}
            kinds[str] = "alphabet is not text", (1, 1.5, b"1" * 62)
            for place, argument in enumerate(given):
                mistake, values = kinds.get(type(argument), no_uuid if "uuid" in name else number)
                for value in values:
                    expected: Any = f"base62: the {mistake}{literal(value)}"
                    if place == 0 and re.match("is_|try_", name):
                        expected = 0 if name.startswith("is_") else None
                    self.assertEqual(self.result(name, *given[:place], value, *given[place + 1 :]), expected, (name, value))

    def test_order(self) -> None:
        """Of several errors, of which some are those of types."""
        calls = {"encode_fixed(1.5, 0, '01')": "number", "last_string(1, 0)": "width", "decode_fixed(1, 0, '01')": "width"}
        calls |= dict.fromkeys(("encode_uuid('', '01')", "encode_uuid_fixed(x'', 0, '01')"), "UUID")
        calls |= dict.fromkeys(("first_number(1, 1, '01')", "decode_blob(1, '01')", "is_valid(1, '01')"), "alphabet")
        for call, expected in calls.items():
            with self.assertRaisesRegex(sqlite3.OperationalError, f"^base62: the {expected} "):
                self.db.execute(f"SELECT base62_{call}")

    def test_wide(self) -> None:
        self.db.setlimit(sqlite3.SQLITE_LIMIT_LENGTH, 100)
        for name, given in (("encode_fixed", (0, 101)), ("encode_fixed", (0, 101, OWN)), ("first_string", ("0", 101))):
            self.assertEqual(self.result(name, *given), "string or blob too big")


class Methods(ctypes.Structure):
    """The functions by which SQLite allocates memory, and others."""

    _fields_ = [
        ("malloc", ctypes.CFUNCTYPE(ctypes.c_void_p, ctypes.c_int)),
        ("free", ctypes.c_void_p),
        ("realloc", ctypes.CFUNCTYPE(ctypes.c_void_p, ctypes.c_void_p, ctypes.c_int)),
        ("others", ctypes.c_void_p * 5),
    ]


ROW = 100


class Allocations(unittest.TestCase):
    """Each decreases `left`, and fails if that is 0 then. Python's own functions would allocate with an exception set."""

    def setUp(self) -> None:
        self.left = 0
        self.library = ctypes.CDLL(_sqlite3.__file__)
        self.default, self.counted = Methods(), Methods()
        for methods in (self.default, self.counted):
            self.configure(5, methods)  # SQLITE_CONFIG_GETMALLOC
        malloc, realloc = self.default.malloc, self.default.realloc
        self.counted.malloc = type(malloc)(lambda size: None if self.fails() else malloc(size))
        self.counted.realloc = type(realloc)(lambda memory, size: None if self.fails() else realloc(memory, size))
        self.configure(4, self.counted)  # SQLITE_CONFIG_MALLOC
        self.addCleanup(self.configure, 4, self.default)
        self.db = ctypes.c_void_p()
        self.addCleanup(lambda: self.library.sqlite3_close(self.db))
        self.open()

    def configure(self, option: int, methods: Methods) -> None:
        """While no database is open: what is allocated then has leaked."""
        self.library.sqlite3_shutdown()
        self.assertEqual(self.library.sqlite3_memory_used(), 0)
        self.assertEqual(self.library.sqlite3_config(option, ctypes.byref(methods)), sqlite3.SQLITE_OK)
        self.library.sqlite3_config(13, 0, 0)  # SQLITE_CONFIG_LOOKASIDE

    def fails(self) -> bool:
        self.left -= 1
        return self.left == 0

    def open(self) -> None:
        self.library.sqlite3_open(b":memory:", ctypes.byref(self.db))
        self.library.sqlite3_enable_load_extension(self.db, 1)

    def load(self) -> int:
        return self.library.sqlite3_load_extension(self.db, MODULE.encode(), None, None)

    def execute(self, query: str) -> tuple[int, int]:
        """The status of the first step, and the integer that it returns."""
        statement = ctypes.c_void_p()
        status = self.library.sqlite3_prepare_v2(self.db, query.encode(), -1, ctypes.byref(statement), None)
        status = status or self.library.sqlite3_step(statement)
        value = self.library.sqlite3_column_int(statement, 0)
        self.library.sqlite3_finalize(statement)
        return status, value

    def results(self, call: Callable[[], Any]) -> Iterator[Any]:
        """What it returns if its first allocation fails, its second, and so on, and at last if none does."""
        for self.left in itertools.count(1):
            result = call()
            reached, self.left = self.left <= 0, 0
            yield result
            if not reached:
                return

    def test_load(self) -> None:
        """A module that loads has the first functions and the last one."""
        names = "SELECT base62_encode(1), base62_encode_uuid(zeroblob(16)), base62_version()"
        for status in self.results(self.load):
            if status == sqlite3.SQLITE_OK:
                self.assertEqual(self.execute(names), (ROW, 1))
            self.library.sqlite3_close(self.db)
            self.open()
        self.assertEqual(status, sqlite3.SQLITE_OK)

    def test_calls(self) -> None:
        """For all types of arguments and results of each function, with texts in UTF-16, which have to be converted."""

        def literal(value: Any) -> str:
            text = value.decode() if isinstance(value, Text) else value
            if isinstance(text, str):
                return f"CAST(x'{text.encode('utf-16-le').hex()}' AS TEXT)"
            return f"x'{value.hex()}'" if isinstance(value, bytes) else "NULL" if value is None else str(value)

        self.load()
        self.execute("PRAGMA encoding = 'UTF-16le'")
        cases = {(name, *map(type, given), type(result)): (name, given, result) for name, given, result in reversed(CALLS)}
        calls = [(f"{name}({', '.join(map(literal, given))})", result) for name, given, result in cases.values()]
        error = Error("", "")
        for call, result in [*calls, ("encode_uuid(zeroblob(16))", "0"), ("encode_uuid('LZ')", error), ("decode(1337)", error)]:
            fails = isinstance(result, Error)
            expected = (sqlite3.SQLITE_ERROR, 0) if fails else (ROW, 1)
            query = f"SELECT base62_{call} IS {'NULL' if fails else literal(result)}"
            *failed, last = self.results(lambda: self.execute(query))
            self.assertEqual(last, expected, query)
            self.assertLessEqual({*failed}, {expected, (sqlite3.SQLITE_NOMEM, 0)}, query)

    def test_rows(self) -> None:
        """For all rows a constant alphabet is created once, and alphabets that change take no more memory with each row."""
        self.load()
        self.execute("CREATE TABLE many AS WITH r (n) AS (SELECT 1 UNION ALL SELECT n + 1 FROM r LIMIT 10000) SELECT n FROM r")
        either = f"CASE n % 2 WHEN 0 THEN '{OWN}' ELSE '{ALPHABETS['alternative']}' END"
        conditions = {f"base62_is_valid(n, '{OWN}') = 0": 100, f"base62_encode_fixed(n, 5 + n % 2, '{OWN}') > ''": 100}
        conditions[f"base62_decode(base62_encode(n, {either}), {either}) = n"] = 100000
        for condition, most in conditions.items():
            self.library.sqlite3_memory_highwater(1)
            used, self.left = self.library.sqlite3_memory_used(), 0
            self.assertEqual(self.execute(f"SELECT count(*) FROM many WHERE {condition}"), (ROW, 10000))
            self.assertLess(-self.left, most)
            self.assertLess(self.library.sqlite3_memory_highwater(0) - used, 30000)


TABLES = """
CREATE TABLE link (id INTEGER PRIMARY KEY, slug TEXT AS (base62_encode(id)) UNIQUE CHECK (base62_is_canonical(slug)));
CREATE TABLE item (u BLOB PRIMARY KEY, key TEXT AS (base62_encode_uuid_key(u)) STORED,
    code TEXT AS (base62_encode_uuid_fixed(u, 23)) CHECK (base62_is_valid(code) AND base62_decode_blob_fixed(code, 23) = u));
CREATE TABLE page (id INTEGER PRIMARY KEY, slug TEXT AS (base62_encode(id)) STORED UNIQUE);
INSERT INTO page VALUES (1337);
CREATE INDEX item_key ON item (key);
CREATE INDEX item_text ON item (base62_encode_uuid(u));
CREATE INDEX item_prefix ON item (u) WHERE key <= base62_last_string('3');
"""
BY_ID, BY_KEY = "SEARCH link USING INTEGER PRIMARY KEY (rowid", "SEARCH item USING INDEX item_key (key>? AND key<?)"
PLANS = [
    ("link WHERE slug = base62_encode(1337)", "SEARCH link USING INDEX sqlite_autoindex_link_1 (slug=?)"),
    ("link WHERE id = base62_try_decode_canonical('LZ')", BY_ID + "=?)"),
    ("item WHERE u = base62_decode_blob('LZ')", "SEARCH item USING INDEX sqlite_autoindex_item_1 (u=?)"),
    ("item WHERE base62_encode_uuid(u) = 'LZ'", "SEARCH item USING INDEX item_text (<expr>=?)"),
    ("item WHERE key BETWEEN base62_first_string('2a') AND base62_last_string('2a')", BY_KEY),
    ("item WHERE key GLOB '2a*'", BY_KEY),
    ("item WHERE key GLOB ?", BY_KEY, "2a*"),
    ("item WHERE key GLOB ? || '*'", "SCAN item", "2a"),
]


class Tables(Case):
    def setUp(self) -> None:
        """In a schema that is not trusted, functions have to be innocuous, and in an index deterministic."""
        super().setUp()
        self.db.execute("PRAGMA trusted_schema = OFF")
        self.db.executescript(TABLES)
        self.db.executemany("INSERT INTO link VALUES (?)", [(n,) for n in TEXTS if n <= BIGINT])
        self.db.executemany("INSERT INTO item VALUES (?)", [(blob(n),) for n in TEXTS])
        self.db.commit()

    def test_plans(self) -> None:
        for condition, expected, *given in PLANS:
            plan = self.db.execute("EXPLAIN QUERY PLAN SELECT * FROM " + condition, given).fetchall()
            self.assertEqual([step[3] for step in plan], [expected], condition)
        with self.assertRaisesRegex(sqlite3.OperationalError, "^cannot add a STORED column$"):
            self.db.execute("ALTER TABLE link ADD COLUMN other TEXT AS (base62_encode(id)) STORED")

    def test_prefixes(self) -> None:
        """The queries of KEYS find the ids of the strings with a prefix, each once, with an index."""
        self.db.executescript("DROP TABLE item; CREATE TABLE item (id TEXT PRIMARY KEY)")
        self.db.executemany("INSERT INTO item VALUES (?)", [(uuid_text(n),) for n in TEXTS])
        steps = "SEARCH item USING COVERING INDEX sqlite_autoindex_item_1 (id>? AND id<?)", *[BY_ID + ">? AND rowid<?)"] * 2
        for (query, strings), step in zip(SEARCHES, steps, strict=True):
            plan = self.db.execute("EXPLAIN QUERY PLAN " + query, ("",)).fetchall()
            self.assertIn(step, [row[3] for row in plan])
            for prefix, expected in strings.items():
                self.assertEqual(sorted(row[0] for row in self.db.execute(query, (prefix,))), expected, prefix)

    def test_trigger(self) -> None:
        """A trigger before a row has an id computes its columns for -1."""
        for table, column in (("bare", "base62_encode(id)"), ("guarded", "CASE WHEN id >= 0 THEN base62_encode(id) END")):
            self.db.executescript(
                f"CREATE TABLE {table} (id INTEGER PRIMARY KEY, slug TEXT AS ({column}) STORED UNIQUE);"
                f"CREATE TRIGGER before_{table} BEFORE INSERT ON {table} BEGIN SELECT 1; END;"
            )
        with self.assertRaisesRegex(sqlite3.OperationalError, "^base62: the number is negative: -1$"):
            self.db.execute("INSERT INTO bare VALUES (NULL)")
        self.db.execute("INSERT INTO guarded VALUES (NULL)")
        self.assertEqual(self.db.execute("SELECT slug FROM guarded").fetchall(), [("1",)])

    def test_affinity(self) -> None:
        """What SQLite makes of texts: a column of integers converts those that are integers, as one of STRING does."""
        texts = [(text,) for text in ("1337", "1e3", "5.0", "1E5", "1337x", "7.5")]
        for kind in ("INTEGER", "STRING"):
            self.db.execute(f"CREATE TABLE stored_{kind} (value {kind})")
            self.db.executemany(f"INSERT INTO stored_{kind} VALUES (?)", texts)
            stored = self.db.execute(f"SELECT value FROM stored_{kind}")
            self.assertEqual([row[0] for row in stored], [1337, 1000, 5, 100000, "1337x", 7.5])

    def test_without_extension(self) -> None:
        """Which queries need it, and that another does not."""
        failing = ("SELECT slug FROM link", "INSERT INTO link VALUES (-1)", "INSERT INTO item VALUES (x'00')")
        with tempfile.TemporaryDirectory() as folder:
            other = sqlite3.connect(folder + "/db")
            self.db.backup(other)
            for query in (*failing, "PRAGMA integrity_check", "VACUUM"):
                with self.assertRaisesRegex(sqlite3.OperationalError, "(unknown|no such) function: base62_"):
                    other.execute(query)
            read = other.execute("SELECT key FROM item ORDER BY key LIMIT 1").fetchone()
            self.assertEqual(read, ("0" * KEY,))
            self.assertEqual(other.execute("SELECT * FROM page WHERE slug = 'LZ'").fetchall(), [(1337, "LZ")])
            other.close()


if __name__ == "__main__":
    unittest.main()
