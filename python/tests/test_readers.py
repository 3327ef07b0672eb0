"""Tests of what COLUMNS.md says of other software, with ids that are equal as floats, and of the examples for columns."""

import doctest
import importlib
import io
import json
import shutil
import sqlite3
import subprocess
import tempfile
import unittest
import uuid
from collections import Counter
from collections.abc import Iterator
from contextlib import closing
from decimal import Decimal
from itertools import product, zip_longest
from typing import Any

import base62
from calls import NAME, Call, page
from test_columns import ColumnsTestCase, columns, each, pa, parquet, pd

csv: Any = importlib.import_module("pyarrow.csv")
arrow_json: Any = importlib.import_module("pyarrow.json")
dataset: Any = importlib.import_module("pyarrow.dataset")
NARROW = [2**53 + 1, 2**60 + 1, 2**60 + 3, 2**63 - 1, 2**60 + 1]
DECIMAL = pa.decimal128(38)
IDS = {pa.int64(): NARROW, pa.uint64(): [*NARROW, 2**64 - 1], DECIMAL: [*NARROW, 2**64 - 1, 10**38 - 1]}
CODES = ["NA", "null", "007", "1E5", "true", "nan", "2026-01-01", "NA"]
# Files of a column and perhaps another one, and how they are read.
fields: Call = lambda name, rows, more=",1": io.BytesIO("".join(f"{row or ''}{more}\n" for row in [name, *rows]).encode())
lines: Call = lambda name, rows: io.BytesIO("".join(json.dumps({name: row, "row": 1}) + "\n" for row in rows).encode())
ALL_LINES = csv.ParseOptions(ignore_empty_lines=False)
by_csv: Call = lambda file, types, **more: csv.read_csv(
    file, parse_options=ALL_LINES, convert_options=csv.ConvertOptions(column_types=types, **more)
)
by_json: Call = lambda file, types: arrow_json.read_json(file, parse_options=arrow_json.ParseOptions(explicit_schema=types))
codes_by_csv: Call = lambda file: by_csv(file, {"id": pa.string()}, strings_can_be_null=True, null_values=[""])["id"]
codes_by_json: Call = lambda file: by_json(file, pa.schema({"id": pa.string()}))["id"]
codes_of: Call = lambda ids: each(base62.encode, ids)
name_of: Call = lambda number: str(uuid.UUID(int=number))


def saved(write: Call, read: Call, *given: Any, **named: Any) -> Any:
    """What is read of what is written to a file."""
    write(*given, file := io.BytesIO(), **named)
    return read(io.BytesIO(file.getvalue()))


def stored(frame: Any) -> Any:
    with closing(sqlite3.connect(":memory:")) as db:
        frame.to_sql("item", db)
        return pd.read_sql("SELECT id FROM item ORDER BY row", db).id


def with_missing(rows: list[Any], least: int = 0) -> Iterator[list[Any]]:
    """The rows, and with one missing first, in the middle and last; only these if at least one has to be."""
    for place in [None, 0, len(rows) // 2, len(rows)][least:]:
        yield rows if place is None else [*rows[:place], None, *rows[place:]]


LISTS = [(of_type, ids) for of_type in IDS for ids in with_missing(IDS[of_type])]
known: Call = lambda ids: [number for number in ids if number is not None]
either: Call = lambda ids, others: [number or other for number, other in zip_longest(ids, others)]
joined: Call = lambda ids, others: Counter({id: max(1, ids.count(id)) * max(1, others.count(id)) for id in ids + others})
# By their result on lists a and b of ids, operations on frames f and g of codes and their rows. What has no order in pandas is
# a Counter.
OPERATIONS = {
    "a": [
        *("f.set_index('id').reset_index().id", "f.set_index(['row', 'id']).reset_index('id').id", "f.melt('id').id"),
        *("f.set_index(['id', 'row']).index.get_level_values('id')", "f.sample(frac=1, random_state=62).sort_index().id"),
        *("f.assign(to=0).pivot(index='row', columns='to', values='id')[0]", "f.melt('row').value", "f.T.loc['id']"),
        *("f[['id']].stack(future_stack=True)", "pd.Series([f.id.tolist()]).explode()", "pd.concat([f[:2], f[2:]]).id"),
        *("f.id.map(lambda code: code)", "f.apply(lambda row: row.id, axis=1)", "f.id.astype('category')", "f.id.astype(object)"),
        *("f.convert_dtypes().id", "f.to_dict('list')['id']", "[row['id'] for row in f.to_dict('records')]", "f.id.to_numpy()"),
        *("[row.id for row in f.itertuples()]", "[row.id for _, row in f.iterrows()]", "stored(f)"),
        *("saved(f.to_pickle, pd.read_pickle).id", "saved(f.to_parquet, pd.read_parquet).id", "saved(f.to_csv, codes_by_csv)"),
        *("saved(f.to_parquet, parquet.read_table)['id']", "saved(f[['id']].to_csv, codes_by_csv, index=False)"),
        "saved(f.to_json, codes_by_json, orient='records', lines=True)",
    ],
    "a + b": ["pd.concat([f, g]).id", "pd.concat([f.id.astype('category'), g.id.astype('category')])"],
    "Counter(id for id in a for other in b if id == other)": ["f.merge(g, on='id').id"],
    "[id for id in a for _ in range(max(1, b.count(id)))]": ["f.merge(g, 'left', 'id').id"],
    "joined(a, b)": [
        *("f.merge(g, 'outer', 'id').id", "f.set_index('id').join(g.set_index('id'), how='outer', rsuffix='2').index"),
        "f.astype({'id': 'category'}).merge(g.astype({'id': 'category'}), 'outer', 'id').id",
    ],
    "either(a, b)": ["f.id.combine_first(g.id)", "f.combine_first(g).id"],
    "either(a, b)[: len(a)]": ["f.id.fillna(g.id)", "f.fillna(g).id"],
    "either(a, [None, *a])[: len(a)]": [
        *("f.id.ffill()", "f[['id']].where(f[['id']].notna(), f[['id']].shift()).id"),
        "f[['id']].mask(f[['id']].isna(), f[['id']].shift()).id",
    ],
    "[None, *a[:-1]]": ["f.id.shift()"],
    "[None, None, *a[2:]]": ["f.id.where(f.row > 1)", "f.id.mask(f.row < 2)"],
    "(a + [None] * 99)[:99]": ["f.id.reindex(range(99))"],
    "known(a)": ["f.dropna().id"],
    "[id for id in known(a) if id in b]": ["f[f.id.isin(g.id.dropna())].id"],
    "[id for id in a if id == 2**60 + 1]": ["f[f.id == encode(2**60 + 1)].id"],
    "Counter({*known(a)})": ["f.groupby('id').row.sum().index", "f.pivot_table(index='id', values='row').index"],
    "Counter({*a})": [
        *("f.groupby('id', dropna=False).size().index", "f.id.value_counts(dropna=False).index"),
        "f.drop_duplicates('id').pivot(index='row', columns='id', values='row').columns",
    ],
    "[*dict.fromkeys(a)]": ["f.id.drop_duplicates()", "pd.Index(f.id).unique()"],
    "[id for row, id in enumerate(a) if id in a[:row]]": ["f[f.duplicated('id')].id"],
    "[*dict.fromkeys(known(a))]": ["f.id.factorize()[1]"],
    "sorted(known(a), key=encode) + [None] * a.count(None)": ["f.sort_values('id').id"],
    "Counter(a) | Counter(b)": ["pd.Index(f.id).union(pd.Index(g.id))"],
}


class Readers(ColumnsTestCase):
    def setUp(self) -> None:
        self.db = sqlite3.connect(":memory:")
        self.addCleanup(self.db.close)

    def is_exact(self, column: Any, ids: list[Any]) -> None:
        self.assertEqual(columns.encode(column).to_pylist(), codes_of(ids))

    def is_rounded(self, column: Any) -> None:
        """Its dtype is a float, which encode rejects."""
        self.assertRegex(str(column.dtype), "float|double")
        self.assertRaisesRegex(TypeError, "the column has the type (float|double)", columns.encode, column)

    def test_recipe(self) -> None:
        """No id is rounded, and no row is lost, on the way from a file to codes in pandas and back, also of one column."""
        for of_type, ids in LISTS:
            schema, ints = pa.schema({"id": of_type}), pa.table({"id": pa.array(ids, of_type)})
            tables = [saved(csv.write_csv, lambda file: by_csv(file, schema), ints)]
            tables += [saved(parquet.write_table, parquet.read_table, ints)]
            tables += [by_csv(fields("id", ids, more), schema) for more in ("", ",1")] + [by_json(lines("id", ids), schema)]
            for table in tables:
                self.is_exact(table["id"], ids)
                frame = pa.table({"code": columns.encode(table["id"])}).to_pandas()
                self.assertEqual(pa.table({"id": columns.decode(frame["code"], type=of_type)}, schema), ints)

    def test_operations(self) -> None:
        """pandas leaves codes, and the strings of UUIDs, as they are."""
        wide, others = [*NARROW, 2**64 - 1, 2**127 + 1], [2**60 + 3, 2**60 + 1, 2**64 - 1, 2**60 + 2, 2**127 + 3]
        forms = (base62.encode, lambda codes: codes), (name_of, columns.encode_uuid)
        for (encode, to_codes), (a, b) in product(forms, zip(with_missing(wide), reversed([*with_missing(others)]))):
            tables = [pa.table({"id": each(encode, ids), "row": range(len(ids))}) for ids in (a, b)]
            for mapper, rest in product((None, pd.ArrowDtype), OPERATIONS):
                f, g = (table.to_pandas(types_mapper=mapper) for table in tables)
                names = globals() | {"f": f, "g": g, "a": a, "b": b, "encode": encode}
                expected = eval(rest, names)
                for operation in OPERATIONS[rest]:
                    codes = columns.decode_uuid(to_codes(eval(operation, names)))
                    ids = [name and name.int for name in codes.to_pylist()]
                    self.assertEqual(ids if isinstance(expected, list) else Counter(ids), expected, operation)

    def test_lists(self) -> None:
        """Ids that no type of pyarrow has are an error, or floats without a type. As integers they are exact."""
        for table in (by_csv(fields("id", [2**53 + 1, 2**63]), None), by_json(lines("id", [2**53 + 1, 2**63]), None)):
            self.assertEqual(table["id"].to_pylist()[0], 2.0**53)
        for ids in with_missing([*NARROW, 2**64 - 1, 2**127 + 1]):
            for of_type in IDS:
                self.assertRaises(pa.ArrowInvalid, by_csv, fields("id", ids), {"id": of_type})
                self.assertRaises(pa.ArrowInvalid, by_json, lines("id", ids), pa.schema({"id": of_type}))
            self.is_exact([json.loads(line)["id"] for line in lines("id", ids)], ids)
            self.is_exact([number and Decimal(number) for number in ids], ids)
            for more in ("", ",1"):
                texts = by_csv(fields("id", ids, more), {"id": pa.string()})["id"].to_pylist()
                self.is_exact([int(text) if text else None for text in texts], ids)
        for ids in with_missing(NARROW):
            rows = self.db.execute(f"VALUES {', '.join(['(?)'] * len(ids))}", ids)
            self.is_exact([number for number, in rows], ids)

    def test_rounded(self) -> None:
        """By default each reader of pandas makes floats of ids beside a missing one. Not all floats are left as such."""
        for ids in with_missing(NARROW, 1):
            parquet.write_table(pa.table({"id": ids}), file := io.BytesIO())
            pd.DataFrame({"id": pd.array(ids, "Int64")}).to_sql("item", self.db, if_exists="replace")
            frames = [pd.read_json(lines("id", ids), lines=True, engine=engine) for engine in ("ujson", "pyarrow")]
            frames += [pd.read_csv(fields("id", ids), engine=engine) for engine in ("c", "python", "pyarrow")]
            for frame in (*frames, pd.read_parquet(file), pd.read_sql("SELECT id FROM item", self.db)):
                self.is_rounded(frame["id"])
        for ids in with_missing(NARROW[:3], 1):
            column = pd.Series(ids, dtype="int64[pyarrow]", name="id")
            filled = column.to_frame().fillna(column[::-1].reset_index(drop=True).to_frame())["id"]
            for result, rows in ((column.drop_duplicates(), ids), (filled, either(ids, ids[::-1]))):
                self.assertEqual((result.dtype, columns.encode(result).to_pylist() == codes_of(rows)), (column.dtype, False))
            # What pandas has written as floats: in Parquet a schema casts it, and a decimal may have an exponent.
            frame = pd.DataFrame({"id": ids, "row": 1})
            frame.to_parquet(file := io.BytesIO())
            commas, types = frame.to_csv(index=False).encode(), pa.schema({"id": pa.int64(), "row": pa.int64()})
            self.assertRaises(pa.ArrowInvalid, by_csv, io.BytesIO(commas), types)
            rounded = [parquet.read_table(file, schema=types), by_csv(io.BytesIO(commas), types.set(0, pa.field("id", DECIMAL)))]
            # So does the first one of several files.
            with tempfile.TemporaryDirectory() as folder:
                parquet.write_table(pa.table({"id": [5]}), f"{folder}/0.parquet")
                frame.to_parquet(f"{folder}/1.parquet")
                rounded.append(parquet.read_table(folder)[1:])
            self.assertEqual([columns.encode(table["id"]).to_pylist() == codes_of(ids) for table in rounded], [False] * 3)

    def test_results(self) -> None:
        """A result is assigned by position. A list of numbers beside a missing one is not that of NumPy. A scalar equals no
        str or int."""
        for ids in with_missing(NARROW):
            frame = pd.DataFrame({"row": 1}, range(len(ids), 0, -1)).assign(code=columns.encode(ids))
            result = columns.decode(frame["code"])
            self.assertEqual(result.to_pylist(), ids)
            self.assertEqual(result.to_numpy(zero_copy_only=False).tolist() == ids, None not in ids)
            for codes in (columns.encode(ids), columns.encode(pa.chunked_array([ids[:2], ids[2:]]))):
                self.assertEqual(codes.to_numpy(zero_copy_only=False).tolist(), codes_of(ids))
        code = columns.encode([1337])[0]
        self.assertNotEqual(code, "LZ")
        self.assertNotEqual(columns.decode(["LZ"])[0], 1337)
        self.assertEqual(self.db.execute("SELECT typeof(?), typeof(?)", (code, code.as_py())).fetchone(), ("blob", "text"))

    def test_codes(self) -> None:
        """pandas writes codes as they are, and with a type pyarrow reads them so, also of one column, and names of folders."""
        self.assertEqual(str(pd.read_csv(fields("code", ["007", "NA"]))["code"].tolist()), "[7.0, nan]")
        lists = [rows for some in (CODES, *zip(CODES)) for rows in with_missing([*some])]
        for codes, dtype in product(lists, (object, pd.ArrowDtype(pa.string()))):
            frame = pd.DataFrame({"id": pd.Series(codes, dtype=dtype), "row": range(len(codes))})
            read = [*map(codes_by_csv, (fields("id", codes), fields("id", codes, ""))), codes_by_json(lines("id", codes))]
            read += [saved(frame.to_csv, codes_by_csv), saved(frame.to_json, codes_by_json, orient="records", lines=True)]
            read += [saved(frame.to_parquet, parquet.read_table)["id"], pa.array(stored(frame), from_pandas=True)]
            self.assertEqual([column.to_pylist() for column in read], [codes] * 7)
        hive = dataset.partitioning(pa.schema({"code": pa.string()}), flavor="hive")
        with tempfile.TemporaryDirectory() as folder:
            parquet.write_to_dataset(pa.table({"code": ["007", None], "row": [1, 2]}), folder, partition_cols=["code"])
            tables = parquet.read_table(folder), parquet.read_table(folder, partitioning=hive)
        self.assertEqual([table["code"].to_pylist() for table in tables], [[7, None], ["007", None]])

    def test_uuids(self) -> None:
        """pandas finds no UUIDs equal, and does not group them."""
        names = pa.table({"name": columns.decode_uuid(["LZ", "LZ"])}).to_pandas(types_mapper=pd.ArrowDtype)
        self.assertEqual((names["name"] == names["name"]).tolist(), [False, False])
        self.assertRaises(NotImplementedError, names.groupby("name").size)

    @unittest.skipUnless(shutil.which("duckdb"), "DuckDB is not installed")
    def test_duckdb(self) -> None:
        """UUIDs and decimals in Parquet are such there, and come back. A HUGEINT becomes a float, and a null an empty line."""
        names, numbers = columns.encode_uuid([NAME, None]), columns.encode([2**64, None])
        table = pa.table({"name": columns.decode_uuid(names), "number": columns.decode(numbers, type=DECIMAL)})
        with tempfile.TemporaryDirectory() as folder:
            parquet.write_table(table, f"{folder}/in.parquet")
            rows = "SELECT *, typeof(name) || typeof(number) AS types, sum(1) OVER () AS sum FROM 'in.parquet'"
            copies = f"COPY ({rows}) TO 'out.parquet'; COPY (SELECT number FROM 'in.parquet') TO 'out.csv'"
            subprocess.run(["duckdb", "-c", copies], cwd=folder, check=True)
            table, alone = parquet.read_table(f"{folder}/out.parquet"), by_csv(f"{folder}/out.csv", {"number": DECIMAL})
        self.assertEqual(alone["number"].to_pylist(), [2**64, None])
        self.assertEqual({*table["types"].to_pylist()}, {"UUIDDECIMAL(38,0)"})
        self.assertEqual([table[name].type for name in ("name", "number", "sum")], [pa.uuid(), DECIMAL, pa.float64()])
        self.assertEqual(columns.encode_uuid(table["name"]).combine_chunks(), names)
        self.assertEqual(columns.encode(table["number"]).combine_chunks(), numbers)


def load_tests(loader: unittest.TestLoader, tests: unittest.TestSuite, pattern: object) -> unittest.TestSuite:
    tests.addTest(doctest.DocTestCase(page("COLUMNS.md")))
    # An example can be pasted alone: it has its imports.
    tests.addTests(doctest.DocTestSuite(columns, globs={}))
    return tests
