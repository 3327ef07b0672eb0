"""Tests of columns by the functions for one value, with pyarrow and pandas."""

import importlib
import inspect
import random
import re
import shutil
import subprocess
import sys
import tempfile
import types
import unittest
import unittest.mock
import uuid
import warnings
from collections import UserDict
from collections.abc import Iterator
from decimal import Decimal
from fractions import Fraction
from functools import cache, partial
from itertools import chain, product
from pathlib import Path
from typing import Any

import base62
from calls import CUSTOM, HIGH, NAME, WIDE, Call, Indexed, RaisesTestCase

try:
    pa: Any = importlib.import_module("pyarrow")
    pd: Any = importlib.import_module("pandas")
except ImportError as error:
    raise unittest.SkipTest(f"{error.name} is not installed") from None
np: Any = importlib.import_module("numpy")
pc: Any = importlib.import_module("pyarrow.compute")
parquet: Any = importlib.import_module("pyarrow.parquet")
columns: Any = importlib.import_module("base62.columns")

TEXT = "2aUyqjCzEIiEcYMKj7TZtw"
# What a decoded number is below, by the type of the result.
LIMITS = {pa.int64(): "2**63", pa.uint64(): "2**64", pa.decimal128(38): "10**38"}
UUID_TYPES: dict[Any, Call] = {pa.uuid(): lambda name: name, pa.binary(16): lambda name: name.bytes}
UUID_TYPES |= dict.fromkeys([pa.string(), pa.large_string()], str)
TEXT_TYPES = [pa.string(), pa.large_string(), pa.string_view(), pa.binary(), pa.large_binary(), pa.binary_view()]


def dictionary(array: Any) -> Any:
    """A dictionary of all rows: their type may have no kernel that finds the distinct ones."""
    return pa.DictionaryArray.from_arrays(pa.array(range(len(array)), pa.int16()), array)


def forms_of(array: Any) -> Iterator[Any]:
    """An array as other columns: slices of more rows, chunks, tables, dictionaries and other libraries' arrays."""
    more = pa.concat_arrays([array[:5], array, array[:3]])
    chunks = pa.chunked_array([array[:1], array[:0], array[1:]])
    table = pa.table({"column": chunks})
    yield from (array, more[5 : len(array) + 5], chunks, table, *table.combine_chunks().to_batches())
    if array.type != pa.uuid():
        yield from (dictionary(array), pa.chunked_array([dictionary(array)]))
    # An array and chunks of another library.
    yield types.SimpleNamespace(__arrow_array__=lambda type=None: array)
    yield types.SimpleNamespace(__arrow_c_array__=array.__arrow_c_array__, __iter__=None)
    yield types.SimpleNamespace(__arrow_c_stream__=chunks.__arrow_c_stream__, __iter__=None)


def each(call: Call, rows: list[Any], *given: Any) -> list[Any]:
    return [None if row is None else call(row, *given) for row in rows]


class ColumnsTestCase(RaisesTestCase):
    def check(self, call: Call, column: Any, expected: list[Any], of_result: Any = None) -> Any:
        """The result is valid, has the type if one is given, and chunks if the column has them."""
        result = call(column)
        result.validate(full=True)
        self.assertEqual(result.to_pylist(), expected, column)
        self.assertIn(of_result, (None, result.type))
        stream = "__arrow_c_stream__" in getattr(column, "__dict__", {})
        has_chunks = stream or isinstance(column, (pa.ChunkedArray, pa.Table))
        self.assertIsInstance(result, pa.ChunkedArray if has_chunks else pa.Array)
        return result


class Arrays(ColumnsTestCase):
    """Arrays of each type in each form equal the functions for one value."""

    def some(self, bits: int, count: int = 200) -> list[Any]:
        maker = random.Random(bits)
        numbers = [maker.getrandbits(maker.randint(1, bits)) for _ in range(count)]
        return [2**bits - 1, 0, *(None if maker.random() < 0.3 else number for number in numbers)]

    def check_forms(self, array: Any, expected: list[Any], call: Call, of_result: Any = pa.string()) -> None:
        for column in forms_of(array):
            self.check(partial(call, type=of_result), column, expected, of_result)

    def test_numbers(self) -> None:
        for of_type in [getattr(pa, f"{sign}int{bits}")() for bits in (8, 16, 32, 64) for sign in ("", "u")]:
            numbers = self.some(of_type.bit_width - (str(of_type)[0] == "i"))
            self.check_forms(pa.array(numbers, of_type), each(base62.encode, numbers), columns.encode)
        for precision in (1, 18, 38):
            numbers = [10**precision - 1, 0, None, 7] * 20
            decimals = pa.array([value and Decimal(value) for value in numbers], pa.decimal128(precision))
            self.check_forms(decimals, each(base62.encode, numbers), columns.encode)

    def test_uuids(self) -> None:
        numbers = self.some(128)
        texts, names = each(base62.encode, numbers), each(lambda number: uuid.UUID(int=number), numbers)
        sixteen, strings = each(lambda name: name.bytes, names), each(str, names)
        arrays = [pa.array(sixteen, pa.binary(16)).cast(of_type) for of_type in (pa.uuid(), pa.binary(16))]
        for array in arrays:
            self.check_forms(array, texts, columns.encode)
        for array in arrays + [pa.array(strings if place < 3 else sixteen, value) for place, value in enumerate(TEXT_TYPES)]:
            self.check_forms(array, texts, columns.encode_uuid)
            self.check_forms(array, each(base62.encode_key, numbers), columns.encode_uuid_key)
        for of_type, (of_result, as_result) in product(TEXT_TYPES, UUID_TYPES.items()):
            self.check_forms(pa.array(texts).cast(of_type), each(as_result, names), columns.decode_uuid, of_result)

    def test_runs(self) -> None:
        """Signals are handled after each run of 4 megabytes."""
        numbers, encode = self.some(63, 3 * 2**16), partial(columns.encode_fixed, width=64)
        texts = pa.array(each(lambda number: base62.encode_fixed(number, 64), numbers))
        names = each(lambda number: str(uuid.UUID(int=number)), numbers)
        self.check(encode, pa.array(numbers), texts.to_pylist())
        self.check(columns.decode, texts, numbers)
        self.check(partial(columns.decode_uuid, type=pa.string()), texts, names)
        for bad in (2**16 - 1, 2**16, 2**17 + 5):
            self.assertEqual(self.raised(base62.OutOfRangeError, encode, [*numbers[:bad], -1]).row, bad)

    def test_dictionaries(self) -> None:
        """Values that no row has may be invalid, and many. Of others the first row is reported."""
        numbers = {"LZ": 1337, "z": 61, "-": None, None: None, "~": None}
        texts = [*numbers, *["?"] * 100]
        cases = ([0, 1, None, 0, 3], None), ([None, 0, 4, 2], 2), ([3, 2, 4] * 100, 1), ([2, 0], 0)
        for of_type, (rows, bad) in product(TEXT_TYPES, cases):
            values, first = pa.array(texts).cast(of_type), pa.array(["1"]).cast(of_type)
            chunk = pa.DictionaryArray.from_arrays(pa.array(rows, pa.int16()), values)
            column = pa.chunked_array([dictionary(first), chunk])
            expected = [1, *(None if row is None else numbers[texts[row]] for row in rows)]
            self.check(lambda array: columns.decode(array, errors="coerce"), column, expected, pa.int64())
            if bad is None:
                self.check(columns.decode, column, expected, pa.int64())
            else:
                error = self.raised(base62.InvalidByteError, columns.decode, column)
                notes = [f"Row {bad + 1} of the column is {values[rows[bad]].as_py()!r}"]
                self.assertEqual((error.row, error.__notes__), (bad + 1, notes))

    def test_empty(self) -> None:
        """Columns with no row, and with missing ones only."""
        of_types = {columns.encode: pa.int8(), columns.encode_uuid: pa.uuid()}
        of_types |= {columns.decode: pa.string_view(), columns.decode_uuid: pa.binary()}
        for call, of_type in of_types.items():
            empty, of_result, nan = pa.array([], of_type), types_of(call)[0], float("nan")
            for column in (empty, [], pa.chunked_array([], of_type), pa.chunked_array([empty]), np.array([]), pd.Series([])):
                self.check(call, column, [], of_result)
            arrays = [np.array([nan]), np.array([nan], np.float32), pd.Series([nan], dtype="category")]
            for column in ([None], [nan], [pd.NA], pd.Series([None]), pd.Series([nan]), *arrays):
                self.check(call, column, [None], of_result)
        # Arrow lets such an array have no offset.
        self.check(columns.decode, pa.Array.from_buffers(pa.string(), 0, [None, *[pa.py_buffer(b"")] * 2]), [])

    def test_two_gibibytes(self) -> None:
        """The last string of a column is decoded again."""
        result = columns.encode_fixed([1337] * 17, 2**27)
        self.assertEqual((result.type, result[16].as_buffer().size), (pa.large_string(), 2**27))
        self.check(columns.decode, result, [1337] * 17)
        # What could have 2^31 bytes has the large type, in each chunk.
        self.assertEqual(columns.encode_fixed([None], 2**31 - 1).type, pa.string())
        self.check(lambda array: columns.encode_fixed(array, 2**31, errors="coerce"), [-1], [None], pa.large_string())
        chunks = pa.chunked_array([[1], [], [None, None]], pa.uint64())
        self.check(lambda array: columns.encode_fixed(array, 2**30)[1:], chunks, [None, None], pa.large_string())
        # Of a dictionary, the values that no row has are not among them.
        chunks = pa.chunked_array([[None]] * 2, pa.uint8())
        for column in (chunks, pa.DictionaryArray.from_arrays(pa.nulls(1, pa.int8()), [1, 2])):
            self.check(lambda array: columns.encode_fixed(array, 2**30), column, [None] * len(column), pa.string())
        # Of 64 bits a string has at most 11 characters, of UUIDs 36. Numbers are not strings. The type is chosen first.
        cases = [(columns.encode, one(1), 10**8, pa.string()) for one in (int, np.uint64)]
        cases.append((partial(columns.decode_uuid, type=pa.string()), "1", 2**26, pa.large_string()))
        for call, value, count, of_result in (*cases, (columns.decode, "1", 2**28, pa.int64())):
            nulls = pa.DictionaryArray.from_arrays(pa.nulls(count, pa.int8()), [value])
            with unittest.mock.patch.object(columns._Conversion, "_convert_dictionary", lambda self, *_: pa.nulls(0, self.type)):
                self.assertEqual(call(nulls).type, of_result)

    def test_shared_strings(self) -> None:
        """Strings of 2^31 bytes and more, which share those of a view. Only LZ is valid."""
        for of_type in (pa.string_view(), pa.binary_view()):
            views = pa.concat_arrays([pa.array(["-" * 2**27, "LZ"], of_type)] * 17)
            self.check(lambda array: columns.decode(array, errors="coerce"), views, [None, 1337] * 17)


class Objects(ColumnsTestCase):
    """Columns of Python, NumPy and pandas."""

    def test_numbers(self) -> None:
        numbers = [1337, None, 0, 2**63 - 1]
        texts = ["LZ", None, "0", "AzL8n0Y58m7"]
        for column in (
            *(numbers, tuple(numbers), (value for value in numbers)),
            type("Once", (), {"__iter__": (lambda one: lambda self: one)(iter(numbers)), "__len__": None})(),
            [float("nan") if value is None else value for value in numbers],
            [pd.NA if value is None else Decimal(value) for value in numbers],
            [pa.scalar(value, pa.int64()) for value in numbers],
            *(np.array(numbers, object), np.array(numbers, object).flat, [1337, np.ma.masked, 0, 2**63 - 1]),
            np.ma.array([1337, 5, 0, 2**63 - 1], ">i8", mask=[0, 1, 0, 0]),
            pd.Series(numbers, dtype="Int64", index=[5, 5, 5, 5]),
            *(pd.Series(numbers, dtype=value) for value in ("uint64[pyarrow]", object)),
            # As those of pandas 3.
            type("Series", (pd.Series,), {"__arrow_c_stream__": None})(numbers, dtype="Int64"),
            *(pd.Series(pd.array(numbers, "Int64")).astype("category"), pd.array(numbers, "UInt64")),
            pd.Categorical.from_codes([1, -1, 0, 2], [0, 1337, 2**63 - 1]),
            pd.DataFrame({"id": pd.array(numbers, "Int64")}, index=[5, 4, 3, 2]),
        ):
            self.assertEqual(columns.encode(column).to_pylist(), texts, column)
        self.check(columns.encode, pd.Index([61, 62]), ["z", "10"])
        # Steps of which the count is not exact in floats, and ends that int64 does not have.
        ranges = [range(60, 63), range(2**62, -1, -(2**60)), range(0, 2**62 + 1, 2**60), range(0), range(3, -9, -1)[:4]]
        ranges += [range(2**63 - 1, 2**63 + 3, 2), range(2**63, 2**63 - 3, -1)]
        for row_ids in (*ranges, *map(pd.RangeIndex, ranges), range(0, 2**70, 2**69), range(5, 2**63 - 1, 2**63 + 1)):
            self.check(columns.encode, row_ids, [base62.encode(number) for number in row_ids])
        with unittest.mock.patch.dict(sys.modules, {"numpy": None}):
            self.check(columns.encode, range(60, 63), ["y", "z", "10"])
        self.assertEqual(self.raised(base62.OutOfRangeError, columns.encode, range(1, -5, -1)).row, 2)
        self.check(columns.encode, np.array([5, 6, 62, 7], np.uint16)[::-2], ["7", "6"])

    def test_arrays(self) -> None:
        """Columns that are not converted value by value, which would be slow, and ranges that are no lists of objects."""
        swapped = np.array([5, 2**64 - 1], ">u8")
        with unittest.mock.patch.object(columns._Conversion, "_convert_values", side_effect=AssertionError):
            with unittest.mock.patch.object(columns, "_pack_objects", side_effect=AssertionError):
                for column in (range(60, 63), pd.RangeIndex(60, 63)):
                    self.check(columns.encode, column, ["y", "z", "10"])
                for column in (swapped, np.ma.array(swapped), pd.Series(swapped)):
                    self.check(columns.encode, column, ["5", "LygHa16AHYF"])
            self.check(columns.encode, [*map(Decimal, (5, 2**64 - 1))], ["5", "LygHa16AHYF"])
            for column in (["LZ", b"z", None], [b"LZ", "z", pd.NA], np.array(["LZ", b"z", None], object)):
                self.check(columns.decode, column, [1337, 61, None])

    def test_wide_integers(self) -> None:
        """Lists that pyarrow has no type for, or that it would convert slowly."""
        lists: list[list[Any]] = [[2**63, 0, None], [2**64, 1, float("nan"), np.float32("nan")], [True, 2, None]]
        lists += [[2**64, np.uint8(5), Indexed(7), None, pd.NA] * 2, [True, None], [NAME, 2**128 - 1, None]]
        lists += [each(Decimal, [0, 10**38, WIDE, None]), [Decimal(5), 7], each(Decimal, ["1E+3", "nan", "-0.0", WIDE])]
        for numbers in lists:
            values = [None if value is None or value is pd.NA or value != value else value for value in numbers]
            texts = each(lambda value: base62.encode(int(value) if isinstance(value, Decimal) else value), values)
            forms = numbers, (value for value in numbers), np.array(numbers, object), pd.Series(numbers, dtype=object)
            for column in (*forms, pd.Categorical(numbers)) if isinstance(numbers[0], Decimal) else forms:
                self.check(columns.encode, column, texts, pa.string())
        call = partial(columns.encode, alphabet=CUSTOM, errors="coerce", type=pa.large_string())
        self.check(call, [2**128, -1, 5, -(2**200)], [None, None, CUSTOM[5], None], pa.large_string())
        for value in each(Decimal, [-1, "1E+50", 2**128, "Infinity", "-Infinity", "1E+999999999"]):
            error = self.raised(base62.OutOfRangeError, columns.encode, [Decimal(5), value])
            self.assertEqual((error.row, error.__notes__), (1, [f"Row 1 of the column is {value!r}"]))
            self.check(call, [value, Decimal(5)], [None, CUSTOM[5]])
        for value in each(Decimal, ["1.5", "1E-999999999"]):
            self.assertEqual(self.raised(TypeError, columns.encode, [Decimal(5), value]).row, 1)
        self.check(columns.encode, each(Decimal, ["sNaN", "0E+999999999"]), [None, "0"])

    def test_uuids(self) -> None:
        for column in (
            *([NAME], [NAME, None], [NAME.bytes, None], [str(NAME), None], [str(NAME), NAME, NAME.bytes, None]),
            *(pd.Series([NAME, None, float("nan")]), pd.Series([str(NAME), NAME.bytes], dtype="category")),
            *(pd.Series([NAME.hex, None], dtype="string"), pd.Series([NAME.urn, None], dtype="category")),
        ):
            for call in (columns.encode_uuid, columns.encode_uuid_key):
                self.check(call, column, [None if pd.isna(value) else TEXT for value in column], pa.string())
        self.check(lambda array: columns.encode_uuid(array, errors="coerce"), [NAME, "5", b"5"], [TEXT, None, None])
        # NumPy cuts zeros at the end of S16.
        zeros = bytes([1]) + bytes(15)
        for dtype in ("S16", "V16"):
            column = np.array([NAME.bytes, zeros], dtype)
            for array in (column, np.ma.array(column), pd.Series(column), pd.Series(column).array):
                for call in (columns.encode_uuid, columns.encode):
                    with warnings.catch_warnings(action="error"):
                        self.check(call, array, [TEXT, base62.encode_uuid(zeros)])
        self.check(columns.encode, [NAME, uuid.UUID(int=WIDE)], [TEXT, "7n42DGM5Tflk9n8mt7Fhc7"])

    def test_strings(self) -> None:
        texts: list[Any] = ["LZ", None, "z"]
        for column in (
            *(texts, np.array(texts, object), [*pa.array(texts)]),
            np.ma.array(["LZ", "", "z"], mask=[0, 1, 0]),
            *(pd.Series(texts, dtype=value) for value in (None, "string", "string[pyarrow]", "category")),
            pd.Categorical(texts),
            pd.CategoricalIndex(texts),
            pd.DataFrame({"code": texts}),
        ):
            self.assertEqual(columns.decode(column).to_pylist(), [1337, None, 61], column)
        self.check(columns.decode, pd.Categorical(texts * 9), [1337, None, 61] * 9)
        for dtype in ("U", "S", "S16", np.dtypes.StringDType()):
            column = np.array(["LZ", "0", "z\0z"], dtype)
            self.check(columns.decode, column[:2], [1337, 0])
            self.assertEqual(self.raised(base62.InvalidByteError, columns.decode, column).row, 2)
        error = self.raised(base62.InvalidByteError, columns.decode, ["LZ", "\ud800"])
        self.assertEqual((error.byte, error.row), (0xED, 1))
        # A program can create a column of strings that are not UTF-8.
        error = self.raised(base62.InvalidByteError, columns.decode, pa.array([b"LZ", b"z\xff"]).view(pa.string()))
        self.assertEqual((error.byte, error.index, error.row), (0xFF, 1, 1))
        for call in (columns.decode_canonical, columns.decode_uuid_canonical):
            self.raised(base62.NotCanonicalError, call, ["LZ", "00LZ"])
        for bad in ("\x80", b"\xff"):
            error = self.raised(base62.InvalidByteError, columns.decode, ["LZ", b"z", bad])
            self.assertEqual((error.row, error.__notes__), (2, [f"Row 2 of the column is {bad!r}"]))


MISSING: list[Any] = [None, pd.NA, float("nan"), np.float32("nan")]
NUMBERS: list[Any] = [5, -1, 2**63, 2**64, Indexed(5), 1.5, 2.0, True, 5j, Fraction(5), np.float16(1.5), np.longdouble(1.5)]
NUMBERS += [np.int8(5), np.uint64(2**63), np.uint8(53), np.bool_(True), np.array(5)]
OTHERS: list[Any] = ["LZ", "not-a-uuid-here!", str(NAME), b"LZ", NAME.bytes, bytearray(b"LZ"), NAME, [5], {"a": 5}, object()]
OTHERS += [memoryview(NAME.bytes), memoryview(b"LZLZ").cast("I"), np.str_("LZ"), np.bytes_(b"LZ"), np.void(bytes(16))]
OTHERS += [np.datetime64("2026-01-01", "ns"), np.datetime64("2026-01-01", "D"), np.timedelta64(5, "ns"), pd.NaT]
OTHERS += [pd.Timestamp("2026-01-01"), types.SimpleNamespace(int=5)]
# Each function, and that for one value, with what they take besides. A valid value, an invalid one, and one of a type
# that is wrong.
FUNCTIONS: list[tuple[Call, Call, tuple[int, ...], Any, Any, Any]] = [
    (columns.encode, base62.encode, (), 1337, -1, "1"),
    (columns.encode_fixed, base62.encode_fixed, (3,), 1337, 62**3, 1.0),
    (columns.encode_key, base62.encode_key, (), 1337, -1, "1"),
    (columns.encode_uuid, base62.encode_uuid, (), str(NAME), "5", 5),
    (columns.encode_uuid, base62.encode_uuid, (), NAME.bytes, b"5", 5),
    (columns.encode_uuid_fixed, base62.encode_uuid_fixed, (22,), NAME.urn, "5", 5),
    (columns.encode_uuid_key, base62.encode_uuid_key, (), NAME.hex, "", 5),
    (columns.decode, base62.decode, (), "LZ", "L-", 5),
    (columns.decode_canonical, base62.decode_canonical, (), "LZ", "", 5),
    (columns.decode_fixed, base62.decode_fixed, (3,), "0LZ", "LZ", 5),
    (columns.decode_key, base62.decode_key, (), "0" * 20 + "LZ", "LZ", 5),
    (columns.decode_uuid, base62.decode_uuid, (), "LZ", "LZ~", 5),
    (columns.decode_uuid_canonical, base62.decode_uuid_canonical, (), b"LZ", b"\xff", NAME),
    (columns.decode_uuid_fixed, base62.decode_uuid_fixed, (2,), b"LZ", b"L-", NAME),
    (columns.decode_uuid_key, base62.decode_uuid_key, (), TEXT, "LZ", NAME),
]


# The types of the parameters, by name.
TYPES = {"column": "object", "width": "_Width", "alphabet": "AnyAlphabet", "errors": "_Errors", "type": "_Type"}
# These take no alphabet.
OF_KEYS = columns.encode_key, columns.encode_uuid_key, columns.decode_key, columns.decode_uuid_key


def types_of(call: Call) -> list[Any]:
    """The types of its results, of which the first is that without an array."""
    if "encode" in call.__name__:
        return [pa.string(), pa.large_string()]
    return [*UUID_TYPES] if "uuid" in call.__name__ else [*LIMITS]


OWN: Any = type("Own", (pa.ExtensionType,), {"__arrow_ext_serialize__": lambda self: b""})(pa.binary(16), "own")


class Arguments(ColumnsTestCase):
    def test_results(self) -> None:
        self.assertEqual({*columns.__all__}, {call.__name__ for call, *_ in FUNCTIONS})
        parameters = [each for call, *_ in FUNCTIONS for each in inspect.signature(call).parameters.values()]
        self.assertEqual({(each.name, each.annotation) for each in parameters}, {*TYPES.items()})
        for call, one, given, value, bad, _ in FUNCTIONS:
            for alphabet in ((), (base62.Alphabet.ALTERNATIVE,), (CUSTOM,), (CUSTOM.encode(),)):
                if call in OF_KEYS and alphabet:
                    self.raised(TypeError, call, [value], *alphabet)
                    continue
                result, of_types = one(value, *given, *alphabet), types_of(call)
                for of_type in (None, *of_types):
                    named: dict[str, Any] = {} if of_type is None else {"type": of_type}
                    of_type = of_type or of_types[0]
                    expected = [UUID_TYPES[of_type](result) if isinstance(result, uuid.UUID) else result, None]
                    for row, errors in ((None, "raise"), (bad, "coerce")):
                        convert = partial(call, **named, errors=errors)
                        self.check(lambda array: convert(array, *given, *alphabet), [value, row], expected, of_type)

    def test_rows(self) -> None:
        """The exception is that of the function for one value. Rows are counted over chunks. An object of another type
        raises TypeError, also if invalid rows become null."""
        for call, one, given, value, bad, wrong in FUNCTIONS:
            for errors in ("raise", "coerce"):
                self.raised(TypeError, call, [wrong], *given, errors=errors)
                self.assertEqual(self.raised(TypeError, call, [value, None, object()], *given, errors=errors).row, 2)
            with self.assertRaises(ValueError) as caught:
                one(bad, *given)
            expected = caught.exception
            rows = [None, *[value] * 300, bad, bad]
            chunks = pa.chunked_array([rows[:7], rows[7:9], rows[9:]])
            series, objects = pd.Series(rows, range(len(rows), 0, -1), object), np.array(rows, object)
            once = objects.flat, dict(enumerate(rows)).values()
            for column in (rows, series, chunks, objects, *once, dictionary(pa.array(rows))):
                error = self.raised(type(expected), call, column, *given)
                notes = {"row": 301, "__notes__": [f"Row 301 of the column is {bad!r}"]}
                self.assertEqual((str(error), vars(error)), (str(expected), vars(expected) | notes))

    def test_other_numbers(self) -> None:
        for of_type, shown in ((pa.int8(), "-1"), (pa.int64(), "-1"), (pa.decimal128(5), "Decimal('-1')")):
            error = self.raised(base62.OutOfRangeError, columns.encode, pa.array([0, -1, -5], of_type))
            self.assertEqual((error.row, error.__notes__), (1, [f"Row 1 of the column is {shown}"]))
        sixteen, both = pa.array([NAME.bytes], pa.binary(16)), (columns.encode_fixed, columns.encode_uuid_fixed)
        names = sixteen.cast(pa.uuid())
        cases: list[Any] = [(call, column, NAME) for call in both for column in (names, dictionary(names), [NAME])]
        cases += [(both[0], sixteen, NAME.int), (both[0], [2**64, 1], 2**64), (both[1], sixteen, NAME.bytes)]
        for call, column, value in cases:
            error = self.raised(base62.OutOfRangeError, call, column, 2)
            self.assertEqual(error.__notes__, [f"Row 0 of the column is {value!r}"])
        error = self.raised(base62.OutOfRangeError, columns.encode, [2**200, 5])
        self.assertEqual(error.row, 0)
        for of_type, shown in LIMITS.items():
            greatest = eval(shown) - 1
            below, text = base62.encode(greatest), base62.encode(greatest + 1)
            self.check(lambda array: columns.decode(array, type=of_type, errors="coerce"), [below, text], [greatest, None])
            for column in ([below, text], [below, bytearray(text, "ascii")], [below, text, "\ud800"]):
                error = self.raised(base62.OutOfRangeError, columns.decode, column, type=of_type)
                self.assertIn(f"the number is not from 0 to {shown} - 1: ", str(error))
                self.assertEqual(error.row, 1)

    def test_notes(self) -> None:
        """A note shows the beginning of a value, and an object whose repr fails as object does."""
        nameless, text = type("Nameless", (), {"__repr__": None})(), type("Text", (str,), {"__repr__": None})
        for kind, call, value, shown in (
            (base62.TooLargeError, columns.decode, "-" * 77, f"'{'-' * 77}'"),
            *((base62.TooLargeError, columns.decode, make("-" * 78), f"'{'-' * 74}...") for make in (str, pa.scalar)),
            (base62.TooLargeError, columns.decode, text("-" * 99), f"'{'-' * 74}..."),
            (base62.TooLargeError, columns.decode, b"-" * 99, f"b'{'-' * 73}..."),
            (base62.OutOfRangeError, columns.encode, int.from_bytes(b"\xff" * 2000), "<int object at 0x[^ ]*>"),
            (TypeError, columns.encode, nameless, "<test_columns.Nameless object at 0x[^ ]*>"),
        ):
            error = self.raised(kind, call, [None, value])
            self.assertRegex("".join(error.__notes__), f"^Row 1 of the column is {shown}$")
            self.assertEqual(error.row, 1)

    def test_mixed(self) -> None:
        """Lists of two objects, of which pyarrow converts some otherwise, and ends the process for some."""

        def outcome(call: Call, pair: tuple[Any, ...]) -> Any:
            try:
                return call(pair)
            except (TypeError, ValueError) as error:
                return type(error)

        missing = {*map(id, MISSING)}
        for call, one, given, *_ in FUNCTIONS:
            for pair in product(MISSING + NUMBERS + OTHERS, repeat=2):
                expected = outcome(lambda rows: [None if id(value) in missing else one(value, *given) for value in rows], pair)
                self.assertEqual(outcome(lambda array: call(array, *given).to_pylist(), pair), expected, (call, pair))
        self.raised(TypeError, columns.encode, pd.array([2**63, np.float16(1.5)], object))

    def test_wrong(self) -> None:
        for call, _, given, value, _, _ in FUNCTIONS:
            two = {"a": [value], "b": [value]}
            tables = {0: value}, UserDict({0: value}), [{"a": value}], pd.DataFrame(), pd.DataFrame(two), pa.table(two)
            for column in (5, None, object(), "LZ", b"LZ", bytearray(b"LZ"), *tables):
                self.raised(TypeError, call, column, *given)
            self.says("a table has one column here, not 2", TypeError, call, pa.table(two), *given)
            for column in (np.array(5), np.array([[76, 90]], np.uint8)):
                self.says(f"a column has one dimension, not {column.ndim}", TypeError, call, column, *given)
            for errors in ("null", "ignore", None, True):
                message = f"errors is 'raise' or 'coerce', not {errors!r}"
                self.says(message, ValueError, call, [value], *given, errors=errors)
            if call not in OF_KEYS:
                for alphabet in ("short", "0" * 62, b"", "é" * 62):
                    self.assertRaises(ValueError, call, [value], *given, alphabet)
                for other in (None, 5):
                    self.raised(TypeError, call, [value], *given, other)
            others = {*UUID_TYPES, *LIMITS} - {*types_of(call)}
            for of_type in (None, "string", "uint64", pa.int32(), pa.binary(), pa.decimal128(37), OWN, *others):
                self.raised(TypeError, call, [], *given, type=of_type)
        message = "the type of the result is pyarrow's string or large_string, not 'string'"
        self.says(message, TypeError, columns.encode, [], type="string")
        for call in (columns.encode, columns.encode_uuid, lambda array, letters: columns.encode_fixed(array, 5, letters)):
            self.says("an alphabet for encoding has ASCII characters", ValueError, call, [NAME], HIGH)
        self.check(lambda array: columns.decode(array, HIGH), [HIGH[5:6]], [5])
        for call in (columns.encode_fixed, columns.encode_uuid_fixed, columns.decode_fixed, columns.decode_uuid_fixed):
            for width, kind in ((-1, ValueError), (-(2**70), ValueError), ("1", TypeError)):
                self.raised(kind, call, [], width)
        self.raised(base62.OutOfRangeError, columns.encode_fixed, [1], 0)
        self.raised(base62.WrongLengthError, columns.decode_fixed, ["1"], 2**70)
        self.assertRaises(MemoryError, columns.encode_fixed, [None] * 2, 2**70)
        # Arrow's pool would reserve the first two.
        with unittest.mock.patch.object(base62._base62, "_convert_rows", side_effect=AssertionError):
            for width, numbers in product((10**12, 2**44, 2**62, 2**70), ([1, 2], pa.chunked_array([[1], [2]]))):
                self.assertRaises(MemoryError, columns.encode_fixed, numbers, width)
            ones = pa.DictionaryArray.from_arrays(pa.array([0] * 2**20, pa.int32()), [1])
            self.assertRaises(MemoryError, columns.encode_fixed, ones, 2**24)
        index = Indexed(1337)
        self.check(lambda array: columns.encode_fixed(array, index, errors="coerce"), [None, 5], [None, "0" * 1336 + "5"])

    def test_types(self) -> None:
        """A column of another type is named, with what it has to have. Hints have tests of their own."""
        numbers, uuids = "not integers, decimal128 of scale 0, uuid or fixed_size_binary[16]", "not uuid, binary or strings: "
        own, runs = OWN.wrap_array(pa.array([bytes(16)], pa.binary(16))), pc.run_end_encode(pa.array([5]))
        for call, column, message in (
            *((columns.encode, column, f"double, {numbers}: ids") for column in ([1.0], pd.Series([1.5]).astype("category"))),
            *((columns.encode, np.array([b""], dtype), f"binary, {numbers}: ") for dtype in ("V8", "V17")),
            (columns.encode, np.array(["2026-01-01"], "M8[ns]"), f"timestamp[ns], {numbers}"),
            *((columns.encode_uuid, column, f"int64, {uuids}") for column in ([1], pa.chunked_array([[1]]))),
            *((columns.decode, column, "int64, not strings or binary") for column in ([1337], dictionary(pa.array([1337])))),
            (columns.encode, own, f"extension<own<Own>>, {numbers}: cast it to uint64"),
            (columns.encode_uuid, own, f"extension<own<Own>>, {uuids}cast it to uint64"),
            (columns.decode, own, "extension<own<Own>>, not strings or binary"),
            (columns.encode, runs, f"{runs.type}, {numbers}: call pyarrow.compute.run_end_decode"),
            (columns.encode_uuid, runs, f"{runs.type}, {uuids}call pyarrow.compute.run_end_decode"),
            (columns.decode, runs, f"{runs.type}, not strings or binary: call pyarrow.compute.run_end_decode"),
        ):
            for errors in ("raise", "coerce"):
                self.assertRaisesRegex(TypeError, f"^the column has the type {re.escape(message)}", call, column, errors=errors)
        for column in ([Decimal(5), NAME], [Decimal("Infinity")]):
            self.assertRaisesRegex(TypeError, "not Decimal$", columns.encode_uuid, column)

    def test_malformed(self) -> None:
        """pyarrow finds what is wrong if it is asked to, and so do the functions in what pyarrow does not convert first."""
        offsets = np.array([0, 2**30, 1, 1], np.int32)
        strings = pa.Array.from_buffers(pa.string(), 3, [None, pa.py_buffer(offsets), pa.py_buffer(b"1")])
        for column in (strings, dictionary(strings), pa.DictionaryArray.from_arrays(pa.array([2], pa.int8()), strings)):
            self.assertRaises(pa.ArrowInvalid, column.validate, full=True)
        for column in (strings, dictionary(strings)):
            self.says("the array is malformed", ValueError, columns.decode, column)

    def test_size(self) -> None:
        """A result keeps hardly more memory than its buffers have bytes."""
        for call, _, given, value, _, _ in FUNCTIONS:
            for of_type in types_of(call):
                before = pa.total_allocated_bytes()
                result = call([value] * 1000, *given, type=of_type)
                self.assertLess(pa.total_allocated_bytes() - before, result.nbytes + 200, (call, of_type))
                del result


IDS: list[Any] = [2**53 + 1, 2**60 + 1, 2**60 + 3, 2**63 - 1, 2**64 - 1, 2**100 + 1, 2**127 + 1]
# One of 16 digits, those below 2^63, 2^64, 10^38 and 2^128: alone, and with a missing one first, third or last.
LISTS = [IDS[:count] for count in (1, 4, 5, 6, 7)]
LISTS += [[*ids[:place], None, *ids[place:]] for ids in LISTS for place in (0, 2, len(ids))]


@cache
def by_duckdb(*ids: int | None) -> list[Any]:
    """The ids in types that Arrow lacks, by each cast of DuckDB that does not fail."""
    casts = product(("HUGEINT", "UHUGEINT", "BIGNUM", "JSON"), ("UBIGINT", "DECIMAL(38, 0)", "UUID"))
    with tempfile.TemporaryDirectory() as folder:
        query = f"COPY (SELECT unnest({each(str, [*ids])})::{{}}::{{}} AS id) TO '{folder}/{{}}.parquet';".replace("None", "NULL")
        queries = [query.format(*cast, place) for place, cast in enumerate(casts)]
        subprocess.run("duckdb", input="\n".join(queries), text=True, stderr=subprocess.DEVNULL)
        return [parquet.read_table(file)["id"] for file in Path(folder).glob("*.parquet")]


def attempt(call: Call, *given: Any) -> list[Any]:
    try:
        return [call(*given)]
    except (TypeError, ValueError, OverflowError, pa.ArrowException):
        return []


TO_DIGITS: list[Call] = [str, lambda number: str(number).encode()]
to_bytes: Call = lambda number: number.to_bytes(16)
to_name: Call = lambda number: str(uuid.UUID(int=number))
keys_of: Call = lambda ids: pa.array(each(base62.encode_key, ids))
numbers_of: Call = lambda ids: attempt(pa.array, ids, pa.uint64()) + attempt(pa.array, each(Decimal, ids), pa.decimal128(38))
has_digits: Call = lambda column: all(value.isdigit() for value in column.drop_null().to_pylist())
ROUNDED = "ids that are floats have been rounded, and no cast restores them"  # It leads nowhere.
# By hint: columns of ids of which the exception has it, and the columns to which it leads.
FOLLOWED: dict[str, tuple[Call, Call]] = {
    ROUNDED: (lambda ids: [pa.array(each(float, ids))], lambda column, *_: [column]),
    "cast it to decimal128(38, 0), or pass the decimals as a list": (
        lambda ids: [pa.array(each(Decimal, ids), pa.decimal256(42, 2))],
        lambda column, ids, texts: [*attempt(column.cast, pa.decimal128(38)), column.to_pylist()],
    ),
    "cast it to uint64, decimal128(38, 0) or uuid where it comes from": (
        lambda ids: [pa.opaque(pa.binary(16), "hugeint", "DuckDB").wrap_array(pa.array(each(to_bytes, ids), pa.binary(16)))],
        lambda column, ids, texts: by_duckdb(*ids),
    ),
    "cast digits to uint64 with pyarrow; only for UUIDs, call {counterpart}": (
        lambda ids: [pa.array(each(call, ids)) for call in (*TO_DIGITS, to_name, to_bytes)],
        lambda column, *_: attempt(column.cast, pa.uint64()) if has_digits(column) else [column],
    ),
    "cast strings to binary": (lambda ids: [keys_of(ids).cast(pa.binary(22))], lambda column, *_: [column.cast(pa.binary())]),
    "call pyarrow.compute.run_end_decode": (
        lambda ids: each(pc.run_end_encode, [*numbers_of(ids), keys_of(ids), pa.array(each(to_name, ids))]),
        lambda column, *_: [pc.run_end_decode(column)],
    ),
    "call {counterpart}": (lambda ids: [*numbers_of(ids), each(Decimal, ids)], lambda column, *_: [column]),
}
# Those of decoded numbers, with the type to pass.
PASSED = {"pass type=pyarrow.uint64()": pa.uint64(), "pass type=pyarrow.decimal128(38)": pa.decimal128(38)}
PASSED |= {"call {counterpart}": None}


@unittest.skipUnless(shutil.which("duckdb"), "DuckDB is not installed")
class Hints(unittest.TestCase):
    def steps(self, name: str, other: str, ids: list[Any], texts: list[Any]) -> Iterator[tuple[str, Call, list[Call]]]:
        """Each hint of a function, a call of which the exception has it, and calls to which it leads."""
        width = {"width": 22} if "fixed" in name else {}
        call, counterpart = (partial(getattr(columns, one), **width) for one in (name, other))
        kind = columns._STRINGS if "decode" in name else columns._UUIDS if "uuid" in name else columns._NUMBERS
        for make, follow, hint in ((*FOLLOWED[hint], hint) for _, hint in kind.hints):
            for column in chain(*attempt(make, ids)):
                given = product((call, counterpart), follow(column, ids, texts))
                yield hint, partial(call, column), [partial(*each) for each in given]
        for of_type, (_, below) in columns._DECODED_NUMBERS.items():
            if "decode" in name and "uuid" not in name and max(filter(None, ids)) >= below.args[0]:
                passed = PASSED[below.args[2]]
                leads_to = partial(call, texts, type=passed) if passed else partial(counterpart, texts)
                yield below.args[2], partial(call, texts, type=of_type), [leads_to]

    def test_followed(self) -> None:
        """Each hint leads to the right values, or to an error, with ids that floats round."""
        right = set()
        for name, ids in product(columns.__all__, LISTS):
            other = name.replace("_uuid", "") if "_uuid" in name else name.replace("code", "code_uuid")
            has_width = "fixed" in name or "key" in name
            texts = each(lambda number: base62.encode_fixed(number, 22) if has_width else base62.encode(number), ids)
            for hint, wrong, calls in self.steps(name, other, ids, texts):
                shown = re.escape(hint.format(counterpart=other))
                self.assertRaisesRegex((TypeError, base62.OutOfRangeError), f": {shown}$", wrong)
                for result in chain(*map(attempt, calls)):
                    values = [getattr(row, "int", row) for row in result.to_pylist()]
                    self.assertEqual(values, ids if "decode" in name else texts, hint)
                    right.add(hint)
        self.assertEqual(right, {*FOLLOWED, *PASSED} - {ROUNDED})
        kinds = [kind for kind in vars(columns).values() if isinstance(kind, columns._Kind)]
        self.assertEqual({hint for kind in kinds for _, hint in kind.hints}, FOLLOWED.keys())
