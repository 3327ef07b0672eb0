"""What several tests share: files, the functions, and calls of each with valid and invalid arguments."""

import doctest
import inspect
import pathlib
import sys
import unittest
import uuid
from array import array
from collections.abc import Callable, Iterator
from dataclasses import dataclass
from decimal import Decimal
from functools import partial
from typing import Any

import base62
from base62 import Alphabet, _base62

PACKAGE = pathlib.Path(__file__).parents[1]
# What packages share is above this one in a clone, and in the same folder in an sdist.
TOP = next(folder for folder in (PACKAGE, PACKAGE.parent) if (folder / "VERSION").exists())
VALUES = TOP / "tests/values.tsv"
README = (PACKAGE / "README.md").read_text()
sys.path.append(str(PACKAGE / "examples"))

CUSTOM = "zyxwvutsrqponmlkjihgfedcbaZYXWVUTSRQPONMLKJIHGFEDCBA9876543210"
LETTERS = Alphabet(CUSTOM)
HIGH = bytes(range(194, 256))
WIDE = 2**128 - 1
TEXT = "7n42DGM5Tflk9n8mt7Fhc7"
NAME = uuid.UUID("550e8400-e29b-41d4-a716-446655440000")
# The types and the alphabets that the extension owns.
OWNED: list[object] = [base62.AlphabetError, base62.OutOfRangeError, *base62.DecodeError.__subclasses__()]
OWNED += [Alphabet, Alphabet.STANDARD, Alphabet.ALTERNATIVE]

Call = Callable[..., Any]
# The functions, and the type that is called too.
CALLS: list[Call] = [Alphabet, *filter(inspect.isroutine, vars(base62).values())]


class OtherUUID(uuid.UUID):
    """A subclass, which goes another way than uuid.UUID."""

    def __index__(self) -> int:
        return 0


@dataclass
class Indexed:
    number: int

    def __index__(self) -> int:
        return self.number

    def __int__(self) -> int:
        return 0


class RaisesTestCase(unittest.TestCase):
    def raised(self, kind: type[BaseException], call: Call, *given: object, **named: object) -> Any:
        """The exception of exactly this type that a call raises."""
        with self.assertRaises(kind) as caught:
            call(*given, **named)
        self.assertIs(type(caught.exception), kind)
        return caught.exception

    def says(self, message: str, kind: type[BaseException], call: Call, *given: object, **named: object) -> None:
        """A call raises an exception of exactly this type, with this message."""
        self.assertEqual(str(self.raised(kind, call, *given, **named)), message)


# Arguments of each parameter, of which the first is valid.
ARGUMENTS: dict[str, list[Any]] = {
    "number": [WIDE, 1337, uuid.UUID(int=WIDE), True, -1, WIDE + 1, 10**100, 1.0],
    "value": [NAME, OtherUUID(int=WIDE), str(NAME), NAME.bytes, "", "é" * 32, b"", 5],
    "text": [bytearray(TEXT, "ascii"), TEXT, b"LZ".zfill(22), memoryview(b"0L0Z")[::2], "", "é", "\ud800", "z" * 22, 5],
    "width": [22, 65, Indexed(22), 1, -1, -(2**64), "1"],
    "alphabet": [Alphabet.ALTERNATIVE, LETTERS, CUSTOM, CUSTOM.encode(), None, "short", "0" * 62, HIGH],
}
ARGUMENTS["text"] += [bytearray(b"-"), "00LZ", array("H", [48]), memoryview(array("H", [48]))]
ARGUMENTS |= {"prefix": ARGUMENTS["text"], "characters": ARGUMENTS["alphabet"]}


def valid_arguments(call: Call, **given: object) -> dict[str, Any]:
    """The given arguments, and valid ones for the other parameters, in the order of the parameters."""
    return {name: ARGUMENTS[name][0] for name in inspect.signature(call).parameters} | given


def calls_of(parameter: str) -> list[Call]:
    """Each call that has the parameter, as a function of it alone."""

    def call_of(call: Call, argument: object) -> Any:
        return call(*valid_arguments(call, **{parameter: argument}).values())

    return [partial(call_of, call) for call in CALLS if parameter in valid_arguments(call)]


OF_NUMBERS = calls_of("number")
OF_TEXTS = calls_of("text") + calls_of("prefix")
OF_ALPHABETS = calls_of("alphabet") + calls_of("characters")


def each_call() -> Iterator[partial[Any]]:
    """Calls with each argument, with too few and too many, and by names. Some raise an error."""
    for call in CALLS:
        valid = valid_arguments(call)
        yield from (partial(call, *[*valid.values(), 1][:count]) for count in range(len(valid) + 2))
        yield from (partial(call, **valid), partial(call, **valid, other=1))
        for name in valid:
            yield from (partial(call, *(valid | {name: argument}).values()) for argument in ARGUMENTS[name])
    for shown in (LETTERS, Alphabet.STANDARD):
        yield partial(repr, shown)
        yield partial(shown.__reduce__)
    encoding = rows_of(True, "w", 2, "U")
    yield encoding
    yield rows_of(False, "u", 2, "L")
    yield partial(_base62._pack_rows, [WIDE, None, NAME, Decimal(WIDE)], None, Decimal, False, bytearray(1), bytearray(64))
    # Too few rows, negative offsets, a wrong type, a wrong argument behind the buffers, and one before them.
    yield rows_of(True, "w", 3, "U")
    yield rows_of(False, "u", 2, "L", values=b"\xff" * 32)
    yield rows_of(False, "L", 2, "L")
    yield partial(_base62._pack_rows, [str(NAME), "not a UUID"], None, None, True, bytearray(1), bytearray(32))
    yield partial(_base62._pack_rows, [Decimal("1.5")], None, Decimal, False, bytearray(1), bytearray(16))
    yield partial(_base62._pack_rows, [1], None, None, True, bytearray(1), b"read-only")
    *given, new, coerces = encoding.args
    yield partial(encoding.func, *given, (*new[:3], b"read-only"), coerces)
    yield partial(encoding.func, True, "letters", *given[2:], new, coerces)


def rows_of(encodes: bool, format: str, count: int, new_format: str, values: bytes = bytes(32)) -> partial[Any]:
    """A call of the loop for columns, with buffers for two rows."""
    new = bytearray(1), bytearray(32), bytearray(44)
    return partial(_base62._convert_rows, encodes, LETTERS, 1, (format, 0, count, b"\3", values, b"LZ"), (new_format, *new), True)


def page(name: str) -> doctest.DocTest:
    """The examples of a page."""
    return doctest.DocTestParser().get_doctest((PACKAGE / name).read_text(), {}, name, name, 0)
