"""Tests of DuckDB's functions, in the extension that BASE62_DUCKDB names. DUCKDB is the shell that runs them."""

import itertools
import json
import os
import re
import subprocess
import tempfile
import unittest
from pathlib import Path
from typing import Any
from uuid import UUID

from values import BIGINT, BIGINTS, HEADER, OWN, README, SEARCHES, TEXTS, WIDEST
from values import Database, Error, Width, arguments_by_result, bigint, calls_of, hint_calls, negative
from values import string_of, text_of, uuid, uuid_hint

SHELL = [os.environ.get("DUCKDB", "duckdb"), "-init", os.devnull, "-unsigned", "-json"]
LOAD = f"LOAD '{os.environ['BASE62_DUCKDB']}';\n"
DUCKDB = Database(
    encoded=[("", int), ("_uuid", uuid)],
    decoded={"": bigint, "_uhugeint": int, "_uuid": uuid},
    wide="uhugeint",
    invalid_numbers={"": negative(-1, -(2**63), -(2**64), -(2**127))},
    invalid_widths=(-(2**63), 2**32 + 7, BIGINT),
)
CALLS = calls_of(DUCKDB)
FUNCTIONS = arguments_by_result(CALLS)
# The types of numbers, to which DuckDB converts smaller integers.
INTEGERS = {"BIGINT": 2**63, "UBIGINT": 2**64, "HUGEINT": 2**127, "UHUGEINT": 2**128}
# An error takes DuckDB a millisecond, so of each function one in five is computed, and those of hints.
FAILING = sorted((call for call in CALLS if isinstance(call.result, Error)), key=lambda call: call.name)
HINTED = [call for call in hint_calls(DUCKDB) if isinstance(call.result, Error)]
SAMPLE = [*(call for call in CALLS if not isinstance(call.result, Error)), *FAILING[::5], *HINTED]


def quoted(value: Any) -> str:
    return "'" + text_of(value).replace("'", "''").replace("\0", "' || chr(0) || '") + "'"


def typed(value: Any, is_first: bool) -> list[tuple[str, str]]:
    """The types that an argument can have, each with the argument in SQL."""
    if isinstance(value, int):
        kinds = [kind for kind, end in INTEGERS.items() if (0 if kind[0] == "U" else -end) <= value < end]
        return [(kind, f"{quoted(value)}::{kind}") for kind in (["BIGINT"] if isinstance(value, Width) else kinds)]
    try:
        return [("UUID", f"{quoted(value)}::UUID") if isinstance(value, UUID) else ("VARCHAR", quoted(value))]
    except UnicodeDecodeError:
        return [("BLOB", f"unhex('{value.hex()}')")] if is_first else []


def shell(script: str) -> subprocess.CompletedProcess[str]:
    ran = subprocess.run(SHELL, input=LOAD + script, capture_output=True, text=True, timeout=600)
    if re.search("Sanitizer|runtime error", ran.stderr):
        raise AssertionError(ran.stderr)
    return ran


def rows(script: str) -> list[dict[str, Any]]:
    """The rows of all queries, which have no error."""
    ran = shell(script)
    if ran.stderr:
        raise AssertionError(ran.stderr)
    return json.loads(ran.stdout.replace("]\n[", ","))


def results(script: str) -> list[Any]:
    """The results of queries of one column."""
    return [value for row in rows(script) for value in row.values()]


class Case(unittest.TestCase):
    def check_counts(self, expected: dict[str, int], table: str, setup: str = "") -> None:
        """In how many rows each condition is true."""
        columns = ", ".join(f'count(*) FILTER (WHERE {condition}) AS "{condition}"' for condition in expected)
        self.assertEqual(rows(f"{setup}SELECT {columns} FROM {table};"), [expected])

    def check_errors(self, expected: list[tuple[str, str]]) -> None:
        """The messages of calls."""
        ran = shell("".join(f"SELECT base62_{call};\n" for call, _ in expected))
        messages = re.findall(r"^Invalid Input Error: base62: (.*)$", ran.stderr, re.MULTILINE)
        self.assertEqual(messages, [message for _, message in expected])
        self.assertNotIn("Error: ", ran.stdout)


class Functions(Case):
    def test_functions(self) -> None:
        """Each is deterministic, and has calls. A text is a VARCHAR or a BLOB."""
        listed = rows("SELECT * FROM duckdb_functions() WHERE function_name LIKE 'base62%';")
        texts = [(row["function_name"], kind, others) for row in listed for kind, *others in [row["parameter_types"] or [""]]]
        blobs = [(name, others) for name, kind, others in texts if kind == "BLOB"]
        self.assertEqual(blobs, [(name, others) for name, kind, others in texts if kind == "VARCHAR"])
        self.assertEqual({row["stability"] for row in listed}, {"CONSISTENT"})
        counted = {(row["function_name"].removeprefix("base62_"), len(row["parameter_types"])) for row in listed}
        self.assertEqual(counted, {*FUNCTIONS, ("version", 0)}, "the second have calls in values.py")

    def test_version(self) -> None:
        """The one that the header has. The module and the fields at its end name the oldest version that README does."""
        loaded = "SELECT extension_version FROM duckdb_extensions() WHERE extension_name = 'base62';"
        version, loaded_version = results("SELECT base62_version();" + loaded)
        self.assertIn(f'#define BASE62_VERSION "{version}"\n', HEADER)
        self.assertEqual(loaded_version, "v" + version)
        (oldest,) = re.findall(r" DuckDB (\S+) and later", README)
        module = Path(os.environ["BASE62_DUCKDB"]).read_bytes()
        fields = [module[place : place + 32].decode().rstrip("\0") for place in range(-416, -288, 32)]
        self.assertEqual(fields[:3], ["C_STRUCT", f"v{version}", f"v{oldest}.0"])
        self.assertEqual(re.findall(rb"\0(v\d+\.\d+\.\d+)\0", module[:-512]), [fields[2].encode()])

    def test_signature(self) -> None:
        """The extension has none, which the setting that README names allows, but not in an open database."""
        (option,) = re.findall(r"allow_\w+", README)
        errors = {LOAD: "signature is either missing or invalid", f"SET {option} = true;": "Cannot change allow_unsigned"}
        for script, expected in errors.items():
            self.assertIn(expected, subprocess.run(SHELL[:3], input=script, capture_output=True, text=True).stderr)

    def test_hints(self) -> None:
        """What the function returns that an error names for the string of a UUID: DuckDB casts it, unless it is a URN."""
        texts = [text for name, (text, *_), _ in HINTED if name == "decode" and uuid_hint("", text)]
        strings = results("".join(f"SELECT base62_encode_uuid(TRY_CAST({quoted(text)} AS UUID));" for text in texts))
        digits = [re.sub(b"[{}-]", b"", text) for text in texts]
        self.assertEqual(strings, [None if text[0] in b"uU" else string_of(int(text, 16), 1) for text in digits])

    def test_calls(self) -> None:
        """Those that return are the rows of tables, one for each function and types of its arguments."""
        tables: dict[tuple[str, tuple[str, ...]], list[str]] = {}
        failing = []
        for name, arguments, result in (call for call in SAMPLE if None not in call.arguments):
            for given in itertools.product(*(typed(value, place == 0) for place, value in enumerate(arguments))):
                values = ", ".join(value for _, value in given)
                if isinstance(result, Error):
                    failing.append((f"{name}({values})", result.message))
                else:
                    expected = "NULL" if result is None else quoted(result)
                    tables.setdefault((name, tuple(kind for kind, _ in given)), []).append(f"({values}, {expected})")
        queries = []
        for (name, types), table in tables.items():
            columns = ", ".join(f"a{place}" for place in range(len(types)))
            different = f"base62_{name}({columns})::VARCHAR IS DISTINCT FROM result"
            queries.append(f"SELECT list(result) FILTER (WHERE {different}) AS {name} ")
            queries.append(f"FROM (VALUES {', '.join(table)}) t({columns}, result);\n")
        self.assertEqual(rows("".join(queries)), [{name: None} for name, _ in tables])
        self.check_errors(failing)

    def test_rows(self) -> None:
        """Two results of each overload by turns, with null in each place, in the first row of a chunk and in one near its end."""
        queries = []
        listed = "FROM duckdb_functions() WHERE function_name LIKE 'base62%' AND function_name <> 'base62_version'"
        for name, types in (row.values() for row in rows(f"SELECT function_name, parameter_types {listed};")):
            calls = FUNCTIONS[name.removeprefix("base62_"), len(types)].items()
            # A number is one of any type.
            small = [(result, given) for result, given in calls if not isinstance(given[0], int) or given[0] <= BIGINT]
            (one, given), (other, others) = small[:2]
            values = [f"if(i % 2 = 0, {quoted(a)}, {quoted(b)})::{kind}" for a, b, kind in zip(given, others, types)]
            expected = f"if(i IN (2048, 4094), NULL, if(i % 2 = 0, {quoted(one)}, {quoted(other)}))"
            for place, value in enumerate(values):
                arguments = [*values[:place], f"if(i IN (2048, 4094), NULL, {value})", *values[place + 1 :]]
                call = f"{name}({', '.join(arguments)})::VARCHAR"
                queries.append(f"SELECT list(i) FILTER (WHERE {call} IS DISTINCT FROM {expected}) FROM range(4096) r(i);")
        self.assertEqual(results("".join(queries)), [None] * len(queries))

    def test_numbers(self) -> None:
        """A column of any integer type but BIGNUM, and no other."""
        types = "TINYINT SMALLINT INTEGER UTINYINT USMALLINT UINTEGER".split()
        columns = ", ".join(f"base62_encode(123::{kind})" for kind in types)
        self.assertEqual(results(f"SELECT unnest([{columns}]);"), ["1z"] * len(types))
        for value in "'1337' 1.5 1337::DOUBLE 1337::DECIMAL(38,0) '1337'::BIGNUM true '1337'::VARCHAR uuid()".split():
            self.assertIn("Binder Error: ", shell(f"SELECT base62_encode({value});").stderr, value)

    def test_alphabets(self) -> None:
        """In a row after one with a valid alphabet, with which the whole alphabet is compared."""
        for letters in (OWN[:61], OWN + "-"):
            error = f"the alphabet has {len(letters)} characters, not 62: '{OWN[:40]}...'"
            self.check_errors([(f"encode(1, unnest(['{OWN}', '{letters}']))", error)])
        self.assertEqual(results(f"SELECT base62_encode(61, unnest(['{OWN}', '{OWN[:61]}-']));"), ["0", "-"])


class Queries(Case):
    def test_threads(self) -> None:
        """Random numbers of 64 and of 128 bits, with four threads, also at widths that change from row to row."""
        trips = (
            "base62_decode_uhugeint(base62_encode(id)) = id",
            "base62_decode_uhugeint(base62_encode(n)) = n",
            "base62_decode(base62_encode(id // 2)) = id // 2",
            f"base62_decode_uhugeint(base62_encode_fixed(n, 30, '{OWN}'), '{OWN}') = n",
            "base62_decode(base62_encode_fixed(id // 2, (11 + n % 90)::BIGINT)) = id // 2",
        )
        # Threads share the row groups of a table, but not a range.
        setup = "SET threads = 4;\nCREATE TABLE t AS SELECT hash(i) AS id, md5_number(i::VARCHAR) AS n FROM range(500000) r(i);\n"
        self.check_counts(dict.fromkeys(trips, 500000), "t", setup)

    def test_widest(self) -> None:
        """Strings of the greatest width, of which several share an allocation, and one whose length needs more than 16 bits."""
        self.check_counts({f"base62_decode(base62_encode_fixed(i, {WIDEST})) = i": 5000}, "range(5000) r(i)")
        self.assertEqual(results("SELECT base62_decode(repeat('0', 65536) || 'LZ');"), [1337])

    def test_joins(self) -> None:
        """What README says of integers that are joined: a join that rounds finds each row twice."""
        kinds = ("BIGINT", "UBIGINT", "HUGEINT", "DECIMAL(38, 0)")
        pairs = [*itertools.product(kinds, repeat=2), ("UHUGEINT", "UBIGINT"), ("UHUGEINT", "HUGEINT")]
        joins = ", ".join(f"(SELECT count(*) FROM t JOIN t u ON t.n::{one} = u.n::{other})" for one, other in pairs)
        setup = f"CREATE TABLE t AS SELECT unnest([{2**53}, {2**53 + 1}]) AS n;\n"
        self.assertEqual(results(f"{setup}SELECT [{joins}];"), [[2] * (len(pairs) - 1) + [4]])

    def test_rounding(self) -> None:
        """What README says is a DOUBLE, and that the types that it recommends instead are not."""
        kinds = {"d / 1": "DOUBLE", "d // 1": "DOUBLE", "u + h": "DOUBLE", "u + b": "DOUBLE", "h // 1": "HUGEINT"}
        kinds |= {"sum(b)": "HUGEINT", "sum(h)": "HUGEINT", "sum(d)": "DECIMAL(38,0)", "sum(u)": "DOUBLE", "sum(q)": "HUGEINT"}
        table = "(SELECT 1::DECIMAL(38, 0) AS d, 1::HUGEINT AS h, 1::UHUGEINT AS u, 1::BIGINT AS b, 1::UBIGINT AS q)"
        types = ", ".join(f"typeof({value})" for value in kinds)
        self.assertEqual(results(f"SELECT [{types}] FROM {table} GROUP BY d, h, u, b;"), [[*kinds.values()]])
        with tempfile.NamedTemporaryFile(suffix=".parquet") as file:
            script = f"COPY {table} TO '{file.name}'; SELECT unnest([typeof(d), typeof(h), typeof(u)]) FROM '{file.name}';"
            self.assertEqual(results(script), ["DECIMAL(38,0)", "DOUBLE", "DOUBLE"])

    def test_prefixes(self) -> None:
        """The queries of KEYS find the ids of the strings with a prefix, each once."""
        setup = f"CREATE TABLE link AS SELECT unnest({BIGINTS})::BIGINT AS id;\n"
        setup += f"CREATE TABLE item AS SELECT unnest({[str(uuid(n)) for n in TEXTS]})::UUID AS id;\n"
        for query, strings in SEARCHES:
            prepared = f"PREPARE search AS SELECT list(s ORDER BY s) FROM ({query.replace('?1', '$1')}) t(s);\n"
            lists = "".join(f"EXECUTE search({quoted(prefix)});\n" for prefix in strings)
            self.assertEqual([value or [] for value in results(setup + prepared + lists)], [*strings.values()])

    def test_row_groups(self) -> None:
        """Of the queries for one range, which scan a table, and not all of its row groups."""
        setup = "CREATE TABLE link AS SELECT 9000000000000 * i AS id FROM range(1000000) r(i);\n"
        setup += "CREATE TABLE item AS SELECT base62_decode_uuid(base62_encode(id)) AS id FROM link;\n"
        for (query, _), prefix in zip(SEARCHES[:2], ("00000000000A", "A")):
            execute = f"PREPARE search AS {query.replace('?1', '$1')}; EXPLAIN ANALYZE EXECUTE search('{prefix}');"
            self.assertRegex(shell(setup + execute).stdout, r"(?s)Sequential Scan.*Row Groups Scanned: [12] / 9")

    def test_collations(self) -> None:
        """Comparisons are by the collation of a column, a prefix or the default."""
        setup = "CREATE TABLE keys (key VARCHAR, nocase VARCHAR COLLATE NOCASE, prefix VARCHAR COLLATE NOCASE);\n"
        setup += "INSERT INTO keys SELECT unnest(['2aUyqjCzEIiEcYMKj7TZtw', '2au8000000000000000000']) AS key, key, '2aU';\n"
        bounds = "BETWEEN base62_first_string({0}) AND base62_last_string({0})"
        literals = bounds.format("'2aU'")
        conditions = [f"key {literals}", f"nocase {literals}", f"key {bounds.format('prefix')}", "base62_encode(1337) = 'lz'"]
        for default, expected in (("", (1, 2, 2, 0)), ("SET default_collation = 'NOCASE';\n", (2, 2, 2, 2))):
            self.check_counts(dict(zip(conditions, expected)), "keys", setup + default)

    def test_casts(self) -> None:
        """DuckDB rounds a number to the type that is named, or that an argument has instead of a VARIANT. A code that looks
        like a number becomes one if no type is named."""
        with tempfile.NamedTemporaryFile("w", suffix=".csv") as file:
            print("id,s\n7.5,1E5", file=file, flush=True)
            query = f"SELECT base62_encode(id) || s FROM read_csv('{file.name}', types = {{'id': 'UBIGINT', 's': 'VARCHAR'}});"
            self.assertEqual(results(f"{query} SELECT s FROM '{file.name}';"), ["81E5", 100000.0])
        self.assertEqual(results("SELECT base62_encode(7.5::VARIANT);"), ["8"])
        bounds = "BETWEEN base62_first_number('AzL8n0Y58m', 11) AND base62_last_uhugeint('AzL8n0Y58m', 11)"
        table = "(SELECT (9223372036854775807::UBIGINT + i::UBIGINT) AS id FROM range(3000) r(i))"
        (count,) = results(f"SELECT count(*) FROM {table} WHERE id {bounds};")
        self.assertGreater(count, 55)

    def test_error_in_a_row(self) -> None:
        """A query ends with the first error of a chunk. TRY and a function that tries make null of such rows alone."""
        setup = "CREATE TABLE t AS SELECT base62_encode(i) || '-'[:(i >= 5990)::INT] AS s FROM range(6000) r(i);\n"
        calls = ("TRY(base62_decode(s))", "base62_try_decode(s)", "base62_try_decode_uhugeint_fixed(s, strlen(s))")
        self.check_counts({f"{call} IS NOT NULL": 5990 for call in calls}, "t", setup)
        ran = shell(setup + "SELECT max(base62_decode(s)) FROM t;\nSELECT 1337 AS next;")
        self.assertIn("base62: Encoded input contains the invalid byte b'-' at index 3: '1Yc-'", ran.stderr)
        self.assertIn("1337", ran.stdout)


if __name__ == "__main__":
    unittest.main()
