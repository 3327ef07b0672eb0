# SPDX-License-Identifier: MIT
# Copyright (c) 2026 the maintainers of base62 for Rattle
"""Encodes and decodes whole columns, with pyarrow.

A column is what pyarrow.array or pyarrow.chunked_array takes: an array of pyarrow or of another Arrow library, a Series
or an Index of pandas, an array of NumPy, a list; also a table or DataFrame of one column, without its index. The result
is a pyarrow.ChunkedArray for a table, a stream or several chunks, and otherwise a pyarrow.Array.

Nulls stay nulls; None, NaN and pandas.NA are nulls. Each function takes errors: with "raise", the first invalid row
raises the exception of the function of base62 with the same name, or OutOfRangeError for a decoded number that the type
of the result does not have. It has the index of the row in its attribute row, and row and value in a note. With
"coerce", an invalid row becomes null. A column or an object of another type raises TypeError.
"""

from __future__ import annotations

import operator
import sys
from collections.abc import Mapping
from dataclasses import dataclass, replace
from decimal import Decimal
from functools import partial
from typing import TYPE_CHECKING, Any, Literal, NamedTuple, SupportsIndex, TypeAlias
from uuid import UUID

import base62
from base62 import Alphabet, AnyAlphabet, OutOfRangeError, _base62

if sys.byteorder != "little":
    raise ImportError("base62.columns needs a little-endian machine")
try:
    import pyarrow as pa
    from pyarrow import compute as pc

    pa.uuid()
except (ImportError, AttributeError) as error:
    raise ImportError("base62.columns needs pyarrow: install pyarrow 18 or later") from error

__all__ = ["decode", "decode_canonical", "decode_fixed", "decode_key"]
__all__ += ["decode_uuid", "decode_uuid_canonical", "decode_uuid_fixed", "decode_uuid_key"]
__all__ += ["encode", "encode_fixed", "encode_key", "encode_uuid", "encode_uuid_fixed", "encode_uuid_key"]

if TYPE_CHECKING:
    from collections.abc import Callable

    _Type: TypeAlias = pa.DataType
    _Results: TypeAlias = "dict[_Type, tuple[int, Callable[[Any, str], object]]]"
    _Array: TypeAlias = "pa.Array | pa.ChunkedArray"
    _Width: TypeAlias = SupportsIndex
    _Errors = Literal["raise", "coerce"]
    _Options: TypeAlias = tuple[AnyAlphabet, _Errors, _Type]

_STANDARD, _KEY = Alphabet.STANDARD, 22
# The types that the extension reads and writes, by their letters.
_LETTERS = {
    **{pa.uint64(): "L", pa.int64(): "l", pa.decimal128(38): "d", pa.binary(16): "w", pa.uuid(): "w"},
    **{pa.string(): "u", pa.binary(): "z", pa.large_string(): "U", pa.large_binary(): "Z"},
}


def _check_below(limit: int, shown: str, hint: str, number: int, counterpart: str) -> int:
    if number >= limit:
        raise OutOfRangeError(f"the number is not from 0 to {shown} - 1: {hint.format(counterpart=counterpart)}")
    return number


# In a hint, counterpart is the function of the same form for UUIDs, or for numbers. A test follows each hint: it leads to the
# right values, or to an error.
# The types of results: the bytes of a row, and the row of what the function for one value returns.
_ENCODED: _Results = dict.fromkeys((pa.string(), pa.large_string()), (-1, lambda text, _: text))
_DECODED_NUMBERS: _Results = {
    pa.int64(): (8, partial(_check_below, 2**63, "2**63", "pass type=pyarrow.uint64()")),
    pa.uint64(): (8, partial(_check_below, 2**64, "2**64", "pass type=pyarrow.decimal128(38)")),
    pa.decimal128(38): (16, partial(_check_below, 10**38, "10**38", "call {counterpart}")),
}
_DECODED_UUIDS: _Results = {
    pa.uuid(): (16, lambda name, _: name),
    pa.binary(16): (16, lambda name, _: name.bytes),
    **dict.fromkeys((pa.string(), pa.large_string()), (36, lambda name, _: str(name))),
}


class _Kind(NamedTuple):
    """What a column may have: types, with those as which they are read, and what to do about others."""

    accepted: str
    types: dict[_Type, _Type]
    hints: list[tuple[Callable[[_Type], bool], str]]


def _is_own(of_type: _Type) -> bool:
    """Return whether this is an extension type of a program or a library. Such may have no hash."""
    return isinstance(of_type, pa.BaseExtensionType) and of_type != pa.uuid()


_OWN_HINT = (_is_own, "cast it to uint64, decimal128(38, 0) or uuid where it comes from")
_RUNS_HINT = (pa.types.is_run_end_encoded, "call pyarrow.compute.run_end_decode")
_STRINGS = _Kind(
    "strings or binary",
    {
        **{same: same for same in (pa.string(), pa.binary(), pa.large_string(), pa.large_binary())},
        **{pa.null(): pa.string(), pa.string_view(): pa.large_string(), pa.binary_view(): pa.large_binary()},
    },
    [(pa.types.is_fixed_size_binary, "cast strings to binary"), _RUNS_HINT],
)
_SIXTEEN_BYTES = dict.fromkeys((pa.uuid(), pa.binary(16)), pa.binary(16))
_UUID_TYPES = _STRINGS.types | _SIXTEEN_BYTES
_is_number = lambda given: pa.types.is_integer(given) or pa.types.is_decimal(given)
_UUIDS = _Kind("uuid, binary or strings", _UUID_TYPES, [(_is_number, "call {counterpart}"), _OWN_HINT, _RUNS_HINT])
_NUMBERS = _Kind(
    "integers, decimal128 of scale 0, uuid or fixed_size_binary[16]",
    {
        **dict.fromkeys((pa.int8(), pa.int16(), pa.int32(), pa.int64()), pa.int64()),
        **dict.fromkeys((pa.uint8(), pa.uint16(), pa.uint32(), pa.uint64(), pa.null()), pa.uint64()),
        **dict.fromkeys(map(pa.decimal128, range(1, 39)), pa.decimal128(38)),
        **_SIXTEEN_BYTES,
    },
    [
        (pa.types.is_floating, "ids that are floats have been rounded, and no cast restores them"),
        (pa.types.is_decimal, "cast it to decimal128(38, 0), or pass the decimals as a list"),
        *(_OWN_HINT, _RUNS_HINT),
        (lambda given: given in _UUID_TYPES, "cast digits to uint64 with pyarrow; only for UUIDs, call {counterpart}"),
    ],
)


def _only(columns: list[Any]) -> Any:
    if len(columns) != 1:
        raise TypeError(f"a table has one column here, not {len(columns)}")
    return columns[0]


def _is_arrow(column: Any) -> bool:
    return hasattr(column, "__arrow_c_array__") or hasattr(column, "__arrow_c_stream__")


def _array_of(column: range) -> Any:
    """Return an array of the integers, or the range if NumPy is not loaded or an end is not in int64."""
    numpy: Any = sys.modules.get("numpy")
    if numpy is None or not all(-(2**63) <= end < 2**63 for end in (column.start, column.stop, column.step)):
        return column
    rows = numpy.arange(len(column), dtype="int64")  # Its own steps are floats.
    rows *= column.step
    rows += column.start
    return rows


def _readable(column: Any, kind: _Kind) -> Any:
    """Return a column as pyarrow takes it as it is meant."""
    if isinstance(column, (str, bytes, bytearray, Mapping)):
        raise TypeError(f"a column is an array or a list, not {type(column).__name__}")
    dimensions = getattr(column, "ndim", 1)
    if dimensions == 2 and hasattr(column, "iloc"):
        return _readable(_only([column.iloc[:, place] for place in range(column.shape[1])]), kind)
    if dimensions != 1:
        raise TypeError(f"a column has one dimension, not {dimensions}")
    if type(column).__name__ == "RangeIndex":
        column = range(column.start, column.stop, column.step)  # pandas converts it by int64 and floats.
    if isinstance(column, range):
        return _array_of(column)
    if type(column).__name__ == "NumpyExtensionArray":
        column = column.__array__()  # Its dtype is not NumPy's.
    dtype: Any = getattr(column, "dtype", None)
    if getattr(dtype, "byteorder", "=") == ">":
        column = column.astype(dtype.newbyteorder("="))  # pyarrow reads no big-endian integers.
    code = getattr(dtype, "char", "O")
    if code == "S" and kind is not _STRINGS:
        # The bytes of numbers, of which NumPy would cut the zeros at the end.
        column = getattr(column, "values", column).view(f"V{dtype.itemsize}")
    # NumPy's strings, which pyarrow would end at their first null character, and types that it does not have.
    if code in "SUTV":
        objects = column.astype(object)
        has_sixteen = code in "SV" and dtype.itemsize == 16 and kind is not _STRINGS
        return pa.array(objects, pa.binary(16), from_pandas=True) if has_sixteen else objects
    if dtype == object and hasattr(column, "to_numpy"):
        column = column.to_numpy()  # An iterator of pandas is slow.
    if not hasattr(column, "__iter__") or _is_arrow(column):
        return column
    may_be_read_once = not hasattr(column, "__getitem__") or hasattr(column, "__next__")
    return list(column) if may_be_read_once else column


def _has_objects(column: Any) -> bool:
    return hasattr(column, "__iter__") and getattr(column, "dtype", object) == object and not _is_arrow(column)


def _types_of_objects(column: Any) -> set[type]:
    """Return the types of the objects in a list, an array or a categorical of objects, besides None, NA and floats."""
    objects = getattr(getattr(column, "dtype", None), "categories", column)
    types = set(map(type, objects)) if _has_objects(objects) else set()
    return {each for each in types if each.__name__ not in ("NoneType", "NAType", "float")}  # Floats may be NaN.


def _pack_objects(column: Any, are_uuids: bool) -> pa.Array | None:
    """Return a list or an array of objects as 16 bytes, or None if a row is not such a number."""
    rows = list(column)
    missing = getattr(sys.modules.get("pandas"), "NA", None)
    buffers = bytearray((len(rows) + 7) // 8), bytearray(16 * len(rows))
    try:
        nulls = _base62._pack_rows(rows, missing, None if are_uuids else Decimal, are_uuids, *buffers)
    except Exception:
        return None
    return pa.Array.from_buffers(pa.binary(16), len(rows), [*map(pa.py_buffer, buffers)], nulls)


def _to_arrow(column: Any, kind: _Kind) -> _Array | None:
    """Return a column as pyarrow has it, or None if it converts values otherwise than base62 does, or not at all."""
    if isinstance(column, (pa.Array, pa.ChunkedArray)):
        return column
    if hasattr(column, "__arrow_c_array__"):
        return pa.array(column)
    # pandas 3 has this too, and takes NaN for a value there.
    if hasattr(column, "__arrow_c_stream__") and not hasattr(column, "iloc"):
        return pa.chunked_array(column)
    types = _types_of_objects(column)
    are_integers = all(hasattr(each, "__index__") and each is not bool for each in types)
    bases = ((str, bytes), pa.Scalar) if kind is _STRINGS else (str, bytes, pa.Scalar)
    bases += (Decimal,) if kind is _UUIDS else ()  # The exception names their type.
    if not are_integers and not any(all(issubclass(each, base) for each in types) for base in bases):
        return None
    try:
        array = pa.array(column, from_pandas=True)
    except (pa.ArrowException, OverflowError, TypeError, UnicodeError):
        return None
    return None if types and pa.types.is_floating(array.type) else array


def _number_of(value: Any) -> Any:
    """Return a decimal that is an integer, or out of range, as an integer. Other values are left unchanged."""
    if not isinstance(value, Decimal) or value.is_nan():
        return value
    if value.is_infinite() or value.adjusted() > 38:
        return 2**128 if value else 0  # The int of a great exponent could fill the memory.
    return int(value) if value == value.to_integral_value() else value


def _is_missing(value: Any) -> bool:
    if isinstance(value, Decimal):
        return value.is_nan()  # A signaling one cannot be compared.
    names = {base.__name__ for base in type(value).__mro__}
    is_float = not names.isdisjoint(("float", "floating"))
    return is_float and value != value or not names.isdisjoint(("NoneType", "NAType", "MaskedConstant"))


def _value_of(row: Any, kind: _Kind) -> Any:
    """Return a row as the functions for one value take it."""
    if not isinstance(row, pa.Scalar):
        return row
    try:
        value = row.as_py()
    except UnicodeDecodeError:
        return row.as_buffer().to_pybytes()
    return int.from_bytes(value) if kind is _NUMBERS and row.type == pa.binary(16) else value


def _shown(value: object) -> str:
    """Return the beginning of what repr shows, which fails for some integers and objects."""
    if isinstance(value, (str, bytes, bytearray)) and len(value) > 80:
        value = value[:80]
    try:
        shown = repr(value)
    except Exception:
        shown = object.__repr__(value)
    return shown if len(shown) < 80 else f"{shown[:75]}..."


@dataclass
class _Conversion:
    """What a function of this module does."""

    kind: _Kind
    type: _Type
    errors: _Errors
    # The bytes of a row of the result at most. -1 is the length of the greatest number of the column's type.
    width: int
    convert_one: Callable[[Any], object]
    convert_rows: Callable[..., tuple[int, int, int]]
    # The name of the function of the same form for UUIDs, or for numbers.
    counterpart: str
    # The column, if it has objects.
    rows: Any = None

    def __call__(self, column: object) -> _Array:
        if self.errors not in ("raise", "coerce"):
            raise ValueError(f"errors is 'raise' or 'coerce', not {self.errors!r}")
        column = _readable(column, self.kind)
        rows = column if _has_objects(column) else None
        packed = None if rows is None or self.kind is _STRINGS else _pack_objects(rows, self.kind is _UUIDS)
        given = _to_arrow(column, self.kind) if packed is None else packed
        if given is None:
            return pa.array(self._convert_values(column), self.type)
        if pa.types.is_struct(given.type):
            given = _only(given.flatten())
        source_type = self._source_type(given)
        chunks = given.chunks if isinstance(given, pa.ChunkedArray) else [given]
        width = self.width if self.width >= 0 else 11 if _LETTERS[source_type] in "Ll" else 22
        if len(given) * self.width > 2**32:
            # Arrow's pool reserves any size. The system's allocator fails if there is not so much memory.
            pa.allocate_buffer(min((len(given) - given.null_count) * self.width, sys.maxsize), pa.system_memory_pool())
        is_large = self.type == pa.string() and max(map(len, chunks), default=0) * width >= 2**31
        sized = replace(self, type=pa.large_string() if is_large else self.type, width=width, rows=rows)
        convert = sized._convert_dictionary if pa.types.is_dictionary(given.type) else sized._convert_array
        results, first = [], 0
        for chunk in chunks:
            results.append(convert(chunk, source_type, first))
            first += len(chunk)
        return pa.chunked_array(results, sized.type) if isinstance(given, pa.ChunkedArray) else results[0]

    def _source_type(self, given: _Array) -> _Type:
        """Return the type as which the extension reads a column, or the values of a dictionary."""
        of_values = given.type.value_type if pa.types.is_dictionary(given.type) else given.type
        if pa.types.is_floating(of_values) and given.null_count == len(given):
            of_values = pa.null()  # Such is a column of NumPy with missing values only.
        accepted = None if _is_own(of_values) else self.kind.types.get(of_values)
        if accepted is None:
            hint = next((f": {hint}" for is_such, hint in self.kind.hints if is_such(of_values)), "")
            hint = hint.format(counterpart=self.counterpart)
            raise TypeError(f"the column has the type {of_values}, not {self.kind.accepted}{hint}")
        return accepted

    def _convert_dictionary(self, array: pa.DictionaryArray, source_type: _Type, first: int) -> pa.Array:
        """Convert a dictionary by its values, of which those that no row has may be invalid."""
        values, indices = array.dictionary, array.indices
        if len(values) > len(array):
            used = indices.dictionary_encode()
            # The take of pyarrow has no kernel for views.
            values = values.cast(source_type) if "view" in str(values.type) else values
            values, indices = values.take(used.dictionary), used.indices
        results = replace(self, errors="coerce")._convert_array(values, source_type, 0)
        if self.errors == "raise" and results.null_count > values.null_count:
            is_invalid = pc.and_(results.is_null(), values.is_valid())
            if (row := is_invalid.take(indices).index(True).as_py()) >= 0:
                self._raise_for(values[indices[row].as_py()], first + row)
        return results.take(indices)

    def _convert_array(self, chunk: pa.Array, source_type: _Type, first: int) -> pa.Array:
        """Convert an array, which begins at a row of the column."""
        array = chunk if chunk.type == source_type else chunk.cast(source_type)
        count, letter = len(array), _LETTERS[self.type]
        if count == 0:
            return pa.array([], self.type)
        validity = pa.allocate_buffer((count + 7) // 8)
        offsets = pa.allocate_buffer((count + 1) * {"u": 4, "U": 8}.get(letter, 0))
        values = pa.allocate_buffer(min(count * self.width, sys.maxsize), resizable=True)
        source = (_LETTERS[array.type], array.offset, count, *array.buffers(), None)[:6]
        result = letter, validity, offsets, values
        row, used, nulls = self.convert_rows(source, result, self.errors == "coerce")
        if row < count:
            self._raise_for(chunk[row] if self.rows is None else self.rows[first + row], first + row)
        buffers = [validity if nulls else None, values]
        if letter in "uU":
            values.resize(used, shrink_to_fit=True)
            buffers.insert(1, offsets)
        return pa.Array.from_buffers(self.type, count, buffers, nulls)

    def _raise_for(self, value: object, row: int) -> None:
        self._convert_values([_value_of(value, self.kind)], row)
        raise ValueError("the array is malformed")

    def _convert_values(self, column: Any, first: int = 0) -> list[object]:
        """Convert objects by the function for one value."""
        results: list[object] = []
        for row, value in enumerate(column, first):
            try:
                results.append(self.convert_one(value))
            except Exception as error:
                is_coerced = self.errors == "coerce" and isinstance(error, ValueError)
                if not is_coerced and not _is_missing(value):
                    error.row = row  # type: ignore[attr-defined]
                    error.add_note(f"Row {row} of the column is {_shown(value)}")
                    raise
                results.append(None)
        return results


def _convert(
    column: object, call: Callable[..., Any], options: _Options, kind: _Kind, results: _Results, width: int = -1
) -> _Array:
    """Convert by the width of _base62._convert_rows, and by the function for one value."""
    alphabet, errors, of_result = options
    characters, encodes, name = Alphabet(alphabet), results is _ENCODED, call.__name__
    if encodes:
        base62.encode(0, characters)  # Raises an exception for an alphabet that is not ASCII.
    if not isinstance(of_result, pa.DataType) or of_result not in results:  # A type equals its name.
        raise TypeError(f"the type of the result is pyarrow's {' or '.join(map(str, results))}, not {of_result!r}")
    size, finish = results[of_result]
    counterpart = name.replace("_uuid", "") if "_uuid" in name else name.replace("code", "code_uuid")
    given = () if name.endswith("_key") else (characters,) if width < 0 else (width, characters)
    value_of = _number_of if kind is _NUMBERS else lambda value: value
    convert_one = lambda value: finish(call(value_of(value), *given), counterpart)
    convert_rows = partial(_base62._convert_rows, encodes, characters, width)
    return _Conversion(kind, of_result, errors, width if encodes else size, convert_one, convert_rows, counterpart)(column)


def _places(width: _Width) -> int:
    places = operator.index(width)
    if places < 0:
        raise ValueError("the width is negative")
    return min(places, sys.maxsize)


def encode(column: object, alphabet: AnyAlphabet = _STANDARD, *, errors: _Errors = "raise", type: _Type = pa.string()) -> _Array:
    """Encode a column of numbers, without leading zeros.

    The column has integers, decimals of scale 0, or UUIDs; or 16 bytes of any number below 2**128, the most
    significant first. The result has the type string, or large_string if this is the type, or if the strings of a chunk
    could have 2 GiB or more.

    >>> from base62 import columns
    >>> columns.encode([1337, 2**128 - 1]).to_pylist()
    ['LZ', '7n42DGM5Tflk9n8mt7Fhc7']
    >>> columns.encode([1, -1], errors="coerce").to_pylist()
    ['1', None]
    """
    return _convert(column, base62.encode, (alphabet, errors, type), _NUMBERS, _ENCODED)


def encode_uuid(
    column: object, alphabet: AnyAlphabet = _STANDARD, *, errors: _Errors = "raise", type: _Type = pa.string()
) -> _Array:
    """Like encode, but encode UUIDs: uuid.UUID objects, 16 bytes, or strings as base62.encode_uuid takes them."""
    return _convert(column, base62.encode_uuid, (alphabet, errors, type), _UUIDS, _ENCODED)


def encode_fixed(
    column: object, width: _Width, alphabet: AnyAlphabet = _STANDARD, *, errors: _Errors = "raise", type: _Type = pa.string()
) -> _Array:
    """Like encode, but pad each string with leading zeros to exactly width characters."""
    return _convert(column, base62.encode_fixed, (alphabet, errors, type), _NUMBERS, _ENCODED, _places(width))


def encode_uuid_fixed(
    column: object, width: _Width, alphabet: AnyAlphabet = _STANDARD, *, errors: _Errors = "raise", type: _Type = pa.string()
) -> _Array:
    """Like encode_uuid, but pad each string with leading zeros to exactly width characters."""
    return _convert(column, base62.encode_uuid_fixed, (alphabet, errors, type), _UUIDS, _ENCODED, _places(width))


def encode_key(column: object, *, errors: _Errors = "raise", type: _Type = pa.string()) -> _Array:
    """Like encode, but encode to keys: standard strings of 22 characters, which sort in numeric order."""
    return _convert(column, base62.encode_key, (_STANDARD, errors, type), _NUMBERS, _ENCODED, _KEY)


def encode_uuid_key(column: object, *, errors: _Errors = "raise", type: _Type = pa.string()) -> _Array:
    """Like encode_key, but encode UUIDs, as encode_uuid takes them."""
    return _convert(column, base62.encode_uuid_key, (_STANDARD, errors, type), _UUIDS, _ENCODED, _KEY)


def decode(column: object, alphabet: AnyAlphabet = _STANDARD, *, errors: _Errors = "raise", type: _Type = pa.int64()) -> _Array:
    """Decode a column of strings or bytes to int64, uint64 or decimal128(38). Leading zeros are ignored.

    pandas rounds integers above 2**53 in many operations, without an error: work with the strings there, and decode last.

    >>> from base62 import columns
    >>> columns.decode(["LZ", b"00LZ"]).to_pylist()
    [1337, 1337]
    >>> columns.decode(["LZ", "-"])
    Traceback (most recent call last):
    base62.InvalidByteError: Encoded input contains the invalid byte b'-' at index 0
    Row 1 of the column is '-'
    """
    return _convert(column, base62.decode, (alphabet, errors, type), _STRINGS, _DECODED_NUMBERS)


def decode_canonical(
    column: object, alphabet: AnyAlphabet = _STANDARD, *, errors: _Errors = "raise", type: _Type = pa.int64()
) -> _Array:
    """Like decode, but accept only canonical strings: those that encode returns."""
    return _convert(column, base62.decode_canonical, (alphabet, errors, type), _STRINGS, _DECODED_NUMBERS, -2)


def decode_fixed(
    column: object, width: _Width, alphabet: AnyAlphabet = _STANDARD, *, errors: _Errors = "raise", type: _Type = pa.int64()
) -> _Array:
    """Like decode, but accept only strings of the width: those that encode_fixed returns."""
    return _convert(column, base62.decode_fixed, (alphabet, errors, type), _STRINGS, _DECODED_NUMBERS, _places(width))


def decode_key(column: object, *, errors: _Errors = "raise", type: _Type = pa.int64()) -> _Array:
    """Like decode, but accept only keys: those that encode_key returns."""
    return _convert(column, base62.decode_key, (_STANDARD, errors, type), _STRINGS, _DECODED_NUMBERS, _KEY)


def decode_uuid(
    column: object, alphabet: AnyAlphabet = _STANDARD, *, errors: _Errors = "raise", type: _Type = pa.uuid()
) -> _Array:
    """Like decode, but decode any number below 2**128 to uuid, binary(16), string or large_string.

    Strings are lowercase with hyphens.
    """
    return _convert(column, base62.decode_uuid, (alphabet, errors, type), _STRINGS, _DECODED_UUIDS)


def decode_uuid_canonical(
    column: object, alphabet: AnyAlphabet = _STANDARD, *, errors: _Errors = "raise", type: _Type = pa.uuid()
) -> _Array:
    """Like decode_uuid, but accept only canonical strings: those that encode_uuid returns."""
    return _convert(column, base62.decode_uuid_canonical, (alphabet, errors, type), _STRINGS, _DECODED_UUIDS, -2)


def decode_uuid_fixed(
    column: object, width: _Width, alphabet: AnyAlphabet = _STANDARD, *, errors: _Errors = "raise", type: _Type = pa.uuid()
) -> _Array:
    """Like decode_uuid, but accept only strings of the width: those that encode_uuid_fixed returns."""
    return _convert(column, base62.decode_uuid_fixed, (alphabet, errors, type), _STRINGS, _DECODED_UUIDS, _places(width))


def decode_uuid_key(column: object, *, errors: _Errors = "raise", type: _Type = pa.uuid()) -> _Array:
    """Like decode_uuid, but accept only keys: those that encode_uuid_key returns."""
    return _convert(column, base62.decode_uuid_key, (_STANDARD, errors, type), _STRINGS, _DECODED_UUIDS, _KEY)
