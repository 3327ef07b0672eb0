"""Tests of the functions: what their arguments can be, their errors, and threads."""

import copy
import ctypes
import os
import pickle
import re
import subprocess
import sys
import threading
import unittest
import unittest.mock
import uuid
from array import array
from concurrent.futures import ThreadPoolExecutor
from itertools import product
from typing import Any

import base62
from base62 import Alphabet
from calls import CUSTOM, HIGH, NAME, OF_ALPHABETS, OF_NUMBERS, OF_TEXTS, README, TEXT, WIDE
from calls import Call, Indexed, OtherUUID, RaisesTestCase, calls_of

STANDARD = CUSTOM[::-1]
UUID_MESSAGE = "a UUID is 32 hexadecimal digits, with hyphens or without, in braces or after urn:uuid:, or 16 bytes"
TEXT_MESSAGE = "an encoded string is a str, bytes, bytearray or memoryview, not {}"

# Stores a byte that is not a letter in a bytes object of zeros, behind its header.
FAR = """
import base62, ctypes
text = bytes(2**31 + 9)
ctypes.memset(id(text) + bytes.__basicsize__ - 1 + 2**31 + 1, 255, 1)
try:
    base62.decode(text, bytes(range(62)))
except base62.InvalidByteError as error:
    print(error.byte, error.index)
"""

# The classes above each exception and below ValueError, in the order in which a name is looked up, and its attributes.
ERRORS: dict[type[ValueError], tuple[list[str], list[str]]] = {
    base62.DecodeError: ([], []),
    base62.EmptyInputError: (["DecodeError"], []),
    base62.TooLargeError: (["DecodeError"], []),
    base62.NotCanonicalError: (["DecodeError"], []),
    base62.WrongLengthError: (["DecodeError"], ["length", "width"]),
    base62.InvalidByteError: (["_BadByteError", "DecodeError"], ["byte", "index"]),
    base62.AlphabetError: (["_BadByteError"], ["byte", "index"]),
    base62.OutOfRangeError: (["OverflowError", "ArithmeticError"], []),
}
VIEWS = [memoryview(b"5").cast("B", ()), memoryview(b"LZ").cast("B", (1, 2))]
VIEWS += [memoryview(array(code, [48, 49]))[::step] for code in "HiIqQfd" for step in (1, 2)]
# What arguments the calls of a parameter reject, by the message. Bytes for a UUID are the 16 of its number, never digits.
REJECTED: list[tuple[list[Call], type[Exception], str, list[Any]]] = [
    (OF_NUMBERS, base62.OutOfRangeError, "the number is not from 0 to 2**128 - 1", [-1, -(2**63) - 1, -(2**64), WIDE + 1]),
    (OF_NUMBERS, base62.OutOfRangeError, "the number is not from 0 to 2**128 - 1", [-(10**100), 10**100]),
    (OF_NUMBERS, TypeError, "a number is an int, has __index__, or is a uuid.UUID, not {}", [1.0, "x", None, b"1", uuid.UUID]),
    (calls_of("value"), ValueError, UUID_MESSAGE, [b"", bytes(15), bytes(17), bytes(32), NAME.hex.encode(), "\ud800" * 32]),
    (calls_of("value"), TypeError, "a UUID is a uuid.UUID, a str or 16 bytes, not {}", [5, bytearray(16), None]),
    (calls_of("width"), ValueError, "the width is negative", [-1, -22, -sys.maxsize - 1, -(2**64) + 4]),
    (calls_of("width"), TypeError, "the width is an int, or has __index__, not {}", [4.0, "x", None, b"4"]),
    (calls_of("width"), TypeError, "the width is an int, or has __index__, not {}; to convert decimal digits, call int()", ["4"]),
    (OF_TEXTS, TypeError, TEXT_MESSAGE, [5, None, [1], {"0"}, 1.0, array("B", b"5"), ctypes.c_char(b"5")]),
    (OF_TEXTS, TypeError, "a memoryview of an encoded string has one dimension, of single bytes", VIEWS),
    (OF_ALPHABETS, ValueError, "the alphabet has 0 characters, not 62", [""]),
    (OF_ALPHABETS, ValueError, "the alphabet has 1 character, not 62", ["0", b"0"]),
    (OF_ALPHABETS, ValueError, "the alphabet has 61 characters, not 62", [STANDARD[:-1]]),
    (OF_ALPHABETS, ValueError, "the alphabet has 8 characters, not 62; pass Alphabet.STANDARD", ["standard", b"standard"]),
    (OF_ALPHABETS, ValueError, "the alphabet has 11 characters, not 62; pass Alphabet.ALTERNATIVE", ["alternative"]),
    (OF_ALPHABETS, ValueError, "the alphabet has 63 characters, not 62", [STANDARD.encode() + b"-"]),
    (OF_ALPHABETS, TypeError, "an alphabet is an Alphabet, a str or bytes, not {}", [None, 62, [*STANDARD], Alphabet]),
    (OF_ALPHABETS, TypeError, "an alphabet is an Alphabet, a str or bytes, not {}", [bytearray(STANDARD.encode())]),
]


def others_run(call: Call) -> bool:
    """Whether another thread runs within a call. The switch interval lets none run if the call keeps the GIL."""

    def seen() -> bool:
        begins = threading.Lock()
        with ThreadPoolExecutor() as pool:
            with begins:
                other = pool.submit(begins.acquire)
            call()
            return other.done()

    interval = sys.getswitchinterval()
    sys.setswitchinterval(1000)
    try:
        return any(seen() for _ in range(100))
    finally:
        sys.setswitchinterval(interval)


def copies(value: Any) -> list[Any]:
    """What copy makes of an object, and each protocol of pickle."""
    pickled = [pickle.dumps(value, protocol) for protocol in range(pickle.HIGHEST_PROTOCOL + 1)]
    return [copy.copy(value), copy.deepcopy(value), *map(pickle.loads, pickled)]


class OtherStr(str):
    """A subclass, whose methods are not called."""

    encode: Any = lambda *given: 5
    replace: Any = None


class OtherInt(int):
    """A subclass, whose methods are not called."""

    def __rshift__(self, width: int) -> int:
        return 0


class Texts(unittest.TestCase):
    def test_kinds_of_texts(self) -> None:
        views: list[Any] = [memoryview(b"x1a")[1:], memoryview(b"1xa")[::2], memoryview(b"a1")[::-1]]
        views += map(memoryview, (array("B", b"1a"), array("b", b"1a")))
        for text in ("1a", OtherStr("1a"), b"1a", bytearray(b"1a"), *views):
            self.assertEqual(base62.decode(text), 98)
            self.assertEqual(base62.key_range(text), (98 * 62**20, 99 * 62**20 - 1))

    def test_kinds_of_numbers(self) -> None:
        uuids: list[Any] = [NAME, uuid.UUID(int=OtherInt(NAME.int)), OtherUUID(int=OtherInt(NAME.int))]
        for given in (*uuids, OtherInt(NAME.int), Indexed(NAME.int)):
            self.assertEqual((base62.encode(given), base62.encode_key(given)), ("2aUyqjCzEIiEcYMKj7TZtw",) * 2)
            self.assertEqual(base62.digit_count(given), 22)
        for given in (*uuids, str(NAME), OtherStr(NAME), NAME.bytes):
            self.assertEqual(base62.encode_uuid(given), "2aUyqjCzEIiEcYMKj7TZtw")
        self.assertEqual((base62.encode(False), base62.encode(True)), ("0", "1"))
        for call in calls_of("width"):
            self.assertEqual(call(Indexed(22)), call(22))

    def test_uuids_of_programs(self) -> None:
        """A program can store any object as the int of a UUID."""
        for stored, kind in ((-1, base62.OutOfRangeError), (WIDE + 1, base62.OutOfRangeError), ("1", TypeError)):
            name = uuid.UUID(int=1)
            object.__setattr__(name, "int", stored)
            self.assertRaises(kind, base62.encode, name)
            self.assertRaises(kind, base62.encode_uuid, name)
        object.__delattr__(name, "int")
        self.assertRaises(AttributeError, base62.encode_uuid, name)

    def test_created_uuids(self) -> None:
        """A UUID has all that UUID(int=..) gives it."""
        for number, text in ((0, "0"), (1337, "LZ"), (WIDE, TEXT)):
            self.assertEqual(pickle.dumps(base62.decode_uuid(text)), pickle.dumps(uuid.UUID(int=number)))


class Threads(unittest.TestCase):
    def test_length(self) -> None:
        """Other threads run from the length on that README names."""
        (least,) = (int(size.replace(",", "")) for size in re.findall(r"reads or writes ([\d,]+) bytes or more", README))
        for length in (least - 1, least):
            zeros = "0" * length
            calls: list[Call] = [
                lambda: base62.decode(zeros),
                lambda: base62.decode(bytearray(zeros, "ascii"), Alphabet.ALTERNATIVE),
                lambda: base62.key_range(zeros),
                lambda: base62.prefix_range(zeros, 5),
                lambda: base62.encode_fixed(1337, len(zeros)),
            ]
            for call in calls:
                self.assertEqual(others_run(lambda: [call() for _ in range(1000)]), length == least)


class Alphabets(RaisesTestCase):
    def test_built_in(self) -> None:
        self.assertEqual(Alphabet.STANDARD, STANDARD.encode())
        self.assertEqual(Alphabet.ALTERNATIVE, STANDARD.swapcase().encode())
        for built_in in (Alphabet.STANDARD, Alphabet.ALTERNATIVE):
            self.assertIs(eval(repr(built_in)), built_in)
            for again in copies(built_in):
                self.assertIs(again, built_in)

    def test_custom(self) -> None:
        custom = Alphabet(CUSTOM)
        self.assertEqual(repr(custom), f"Alphabet(b'{CUSTOM}')")
        self.assertEqual(str(custom), repr(custom))
        self.assertEqual(eval(repr(custom)), custom)
        self.assertEqual((custom, hash(custom)), (CUSTOM.encode(), hash(CUSTOM.encode())))
        for again in (*copies(custom), Alphabet(custom), Alphabet(characters=CUSTOM)):
            self.assertIs(type(again), Alphabet)
            self.assertEqual((again, hash(again)), (custom, hash(custom)))
            self.assertEqual(base62.decode(base62.encode(1337, custom), again), 1337)

    def test_overridden_bytes(self) -> None:
        """A method that a subclass of bytes overrides is not called."""

        class Subclass(bytes):
            def __bytes__(self) -> bytes:
                return STANDARD.encode()

        custom = Alphabet(Subclass(CUSTOM.encode()))
        self.assertEqual(custom, CUSTOM.encode())
        alphabets: list[Any] = [custom, Subclass(CUSTOM.encode()), OtherStr(CUSTOM)]
        for alphabet in alphabets:
            self.assertEqual(base62.decode(OtherStr("1"), alphabet), CUSTOM.index("1"))

    def test_immutable(self) -> None:
        """As with a built-in type: no attribute changes, no class is below it, and each instance is checked."""
        of_type: Any = Alphabet
        custom: Any = Alphabet(CUSTOM)
        with self.assertRaises(AttributeError):
            custom.name = "custom"
        for name in ("STANDARD", "ALTERNATIVE", "__new__", "name"):
            self.assertRaises(TypeError, setattr, of_type, name, custom)
        self.assertRaises(TypeError, delattr, of_type, "STANDARD")
        self.assertRaises(TypeError, type, "Subclass", (of_type,), {})
        self.assertRaises(TypeError, bytes.__new__, of_type, CUSTOM.encode())
        self.assertIs(type(of_type.fromhex(custom.hex())), Alphabet)
        self.assertRaises(ValueError, of_type.fromhex, "00")

    def test_ascii(self) -> None:
        """A str has to be ASCII, and bytes only to encode."""
        for letters in ("é" + STANDARD[1:], "é" + STANDARD[2:], "\ud800" + STANDARD[1:]):
            for call in OF_ALPHABETS:
                self.raised(UnicodeEncodeError, call, letters)
        mixed = STANDARD[:61].encode() + b"\x80"
        for alphabet in (HIGH, Alphabet(HIGH), mixed, Alphabet(mixed)):
            for call in (lambda custom: base62.encode(1, custom), lambda custom: base62.encode_fixed(1, 5, custom)):
                self.says("an alphabet for encoding has ASCII characters", ValueError, call, alphabet)
        self.assertEqual(base62.encode(61, bytes(range(66, 128))), "\x7f")


class Faults(RaisesTestCase):
    def test_wide(self) -> None:
        for width in (64, 65, 4095, 4096, 5000):
            text = CUSTOM[0] * (width - 1) + CUSTOM[61]
            self.assertEqual((base62.encode_fixed(61, width, CUSTOM), base62.decode_fixed(text, width, CUSTOM)), (text, 61))
        for width in (sys.maxsize, sys.maxsize + 1, 2**64 + 4, 2**70):
            self.assertEqual(base62.prefix_range(CUSTOM[0] * 5000, width, CUSTOM), (0, WIDE))
            self.assertIsNone(base62.prefix_range(CUSTOM[1], width, CUSTOM))
            self.raised(MemoryError, base62.encode_fixed, 1, width)
            self.raised(base62.WrongLengthError, base62.decode_fixed, "00LZ", width)
        self.raised(base62.WrongLengthError, base62.decode_fixed, "00LZ", Indexed(2**70))

    def test_rejected(self) -> None:
        for calls, kind, message, arguments in REJECTED:
            for call, argument in product(calls, arguments):
                self.says(message.format(type(argument).__name__), kind, call, argument)
        with unittest.mock.patch.object(Indexed, "__index__", side_effect=LookupError):
            for call in OF_NUMBERS:
                self.raised(LookupError, call, Indexed(5))

    def test_bad_bytes(self) -> None:
        for call in OF_TEXTS:
            error = self.raised(base62.InvalidByteError, call, OtherStr("0" * 19 + "\ud800"))
            self.assertEqual((error.byte, error.index), (0xED, 19))
            self.assertEqual(str(error), "Encoded input contains the invalid byte b'\\xed' at index 19")
        # Over letters that are not ASCII the bad byte may be within a character.
        error = self.raised(base62.InvalidByteError, base62.decode, "é", HIGH)
        self.assertEqual((error.byte, error.index), (0xA9, 1))
        # A lone surrogate has bytes too, which may be characters of such an alphabet.
        self.assertEqual(base62.decode("\ud800", bytes([*range(128, 189), 0xED])), (61 * 62 + 32) * 62)

    def test_far_index(self) -> None:
        """A string of more than 2**31 bytes. It takes no memory, since its zeros are only read: so another Python, since
        the allocator of -X dev writes to all that it frees."""
        arguments = [sys.executable, "-c", FAR]
        result = subprocess.run(arguments, env=os.environ | {"PYTHONMALLOC": "malloc"}, capture_output=True, text=True)
        self.assertEqual((result.stdout, result.stderr), (f"255 {2**31 + 1}\n", ""))

    def test_kinds(self) -> None:
        """What an except clause catches, and exceptions that a program creates and copies."""
        errors = [self.raised(base62.InvalidByteError, base62.decode, "00LZ-")]
        errors += [self.raised(base62.WrongLengthError, base62.decode_fixed, "LZ", 5)]
        for kind, (above, attributes) in ERRORS.items():
            names = [kind.__name__, *above, "ValueError", "Exception", "BaseException", "object"]
            self.assertEqual([base.__name__ for base in kind.__mro__], names)
            errors += [kind("said"), kind("said", *(45, 4)[: len(attributes)])]
            expected = [dict(zip(attributes, given)) for given in ((0, 0), (45, 4))]
            self.assertEqual([vars(error) for error in errors[-2:]], expected)
        for error in errors:
            for again in copies(error):
                self.assertIs(type(again), type(error))
                self.assertEqual((str(again), vars(again)), (str(error), vars(error)))
