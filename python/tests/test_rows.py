"""Tests of the loops of base62.columns over plain buffers, valid and malformed, by the functions for one value."""

import mmap
import random
import signal
import sys
import unittest
import unittest.mock
import uuid
from array import array
from itertools import accumulate, pairwise
from typing import Any

import base62
from base62 import _base62
from calls import LETTERS, Indexed
from test_base62 import others_run

SIZES = {"L": 8, "l": 8, "d": 16, "w": 16, "u": 4, "z": 4, "U": 8, "Z": 8}
ORDERS: Any = dict.fromkeys(SIZES, sys.byteorder) | {"w": "big"}
TEXTS = "uzUZ"
# The types of a column and of a result, of encoding and of decoding.
FORMATS = {True: ("LldwuzUZ", "uU"), False: (TEXTS, "LldwuU")}
GREATEST = {"l": 2**63 - 1, "L": 2**64 - 1, "d": 10**38 - 1}
LIMITS = [number + more for number in GREATEST.values() for more in (0, 1)]
STANDARD = base62.Alphabet.STANDARD
# In this one the zero is the null byte.
LOWEST = base62.Alphabet(bytes(range(62)))
MALFORMED = "the array is malformed"


def bitmap(valid: list[bool]) -> bytes:
    return sum(bit << i for i, bit in enumerate(valid)).to_bytes((len(valid) + 7) // 8, "little")


def buffer(given: bytes) -> "array[int]":
    """A buffer without a byte behind its end, which the address sanitizer would take for its own."""
    return array("B", given)


def to_bytes(format: str, *numbers: int) -> bytes:
    """Values of a type, or the offsets of its strings."""
    return b"".join(value.to_bytes(SIZES[format], ORDERS[format], signed=format not in "Lw") for value in numbers)


def number_at(format: str, values: "array[int]", index: int) -> int:
    size = SIZES[format]
    return int.from_bytes(values[index * size : index * size + size], ORDERS[format], signed=format not in "Lw")


def convert(encodes: bool, source: Any, result: Any, coerces: bool = False, letters: Any = STANDARD, option: int = -1) -> Any:
    return _base62._convert_rows(encodes, letters, option, source, result, coerces)


class Input:
    """The arguments of a call, and what it has to do."""

    def __init__(self, rng: random.Random, encodes: bool) -> None:
        self.rng, self.encodes, self.letters = rng, encodes, rng.choice([STANDARD, LETTERS])
        self.format, self.new_format = (rng.choice(value) for value in FORMATS[encodes])
        # A width, or -1. To decode canonical strings it is -2.
        self.option = rng.choice([-1, -1 if encodes else -2, 0, 5, 22, rng.randrange(40)])
        self.offset, self.count, self.coerces = rng.choice([0, rng.randrange(20)]), rng.randrange(20), rng.random() < 0.5
        valid = [rng.random() < 0.8 for _ in range(self.offset + self.count)]
        self.validity = buffer(bitmap(valid)) if rng.random() < 0.7 else None
        rows, is_text = [self.row() for _ in valid], self.format in TEXTS
        self.values = buffer(to_bytes(self.format, *(accumulate(map(len, rows), initial=0) if is_text else rows)))
        self.characters = buffer(b"".join(rows) if is_text else b"")
        self.new = [buffer(rng.randbytes(size)) for size in self.sizes()]
        self.new[2].extend(rng.randbytes(rng.choice([0, 0, 0, 0, rng.randrange(30)])))

    def most(self) -> int:
        """The bytes that a row of the result may need."""
        if not self.encodes:
            return 36 if self.new_format in TEXTS else SIZES[self.new_format]
        return self.option if self.option >= 0 else 11 if self.format in "Ll" else 22

    def sizes(self) -> list[int]:
        """The least sizes of the buffers of the result."""
        ends = (self.count + 1) * SIZES[self.new_format] if self.new_format in TEXTS else 0
        return [(self.count + 7) // 8, ends, self.most() * self.count]

    def row(self) -> Any:
        rng = self.rng
        bits = {"L": 64, "l": 63, "d": 127}.get(self.format, 128)
        is_limit = rng.random() < 0.3
        limits = [limit for limit in LIMITS if limit < 2**bits]
        number = rng.choice(limits) if is_limit else rng.getrandbits(rng.randint(1, bits))
        if self.format in "ld" and rng.random() < 0.1:
            return ~number
        if self.format not in TEXTS:
            return number
        if not self.encodes:
            text = base62.encode(number >> rng.choice([0, 0 if is_limit else 64]), self.letters).encode()
            padded = text.rjust(max(self.option, 0), self.letters[:1])
            return rng.choice([text, text, padded, padded, self.letters[:1] + text, text + b"-", b""])
        name = uuid.UUID(int=number)
        texts = [name.hex, str(name), name.urn, f"{{{name}}}", str(name)[1:], name.hex + "-"]
        sixteen = [name.bytes, name.bytes[1:], name.bytes + b"-"]
        return rng.choice(sixteen if self.format in "zZ" else [value.encode() for value in texts])

    def damage(self) -> None:
        """Makes a buffer too short, an offset of its strings wrong, a number negative or too great, or a type another."""
        rng = self.rng
        place = rng.choice("option offset count validity values characters new ends ends format new_format".split())
        parts: Any = self.new if place == "new" else vars(self)
        key: Any = rng.randrange(3) if place == "new" else place
        if place in ("option", "offset", "count"):
            other = rng.choice([rng.randrange(30), rng.getrandbits(64) - 2**63])
            parts[key] = rng.choice([-1, -2, -(2**63), 2**63 - 1, 2**63 - 1 - abs(self.count), 2**62, 2**32, other])
        elif place in ("format", "new_format"):
            # Another type, or one of which a char would be the letter of a type, or the end of a string.
            parts[key] = chr(rng.choice([0, 256]) + rng.choice(b"LldwuzUZ\0"))
        elif place != "ends":
            # A slice has no byte behind its end either.
            parts[key] = parts[key] and parts[key][: -rng.choice([1, 1, 1, rng.randint(1, 20)])]
        elif self.format in TEXTS and len(self.values) >= SIZES[self.format]:
            size, length = SIZES[self.format], len(self.characters)
            great = [2**31 - 1, -(2**31)] if size == 4 else [2**32, 2**63 - 1, -(2**63)]
            end = rng.choice([-1, 0, rng.randrange(length + 1), length, length + 1, *great])
            start = rng.randrange(len(self.values) // size) * size
            self.values[start : start + size] = buffer(to_bytes(self.format, end))

    def has_rows(self) -> bool:
        last, (formats, new_formats) = self.offset + self.count, FORMATS[self.encodes]
        if self.format not in formats or self.new_format not in new_formats or min(self.offset, self.count) < 0 or last > 2**40:
            return False
        has_values = len(self.values) >= (last + (self.format in TEXTS)) * SIZES[self.format]
        has_bits = self.validity is None or len(self.validity) * 8 >= last
        return has_values and has_bits and all(len(new) >= size for new, size in zip(self.new, self.sizes()))

    def value(self, row: int) -> Any:
        """A row as the function for one value takes it, or its bytes if it is malformed."""
        i = self.offset + row
        if self.validity is not None and not self.validity[i // 8] >> i % 8 & 1:
            return None
        if self.format not in TEXTS:
            return number_at(self.format, self.values, i)
        start, end = (number_at(self.format, self.values, value) for value in (i, i + 1))
        if not 0 <= start <= end <= len(self.characters):
            raise LookupError
        text = self.characters[start:end].tobytes()
        return text.decode() if self.encodes and self.format in "uU" else text

    def convert(self, value: Any) -> Any:
        named: dict[str, Any] = {"alphabet": self.letters} | ({"width": self.option} if self.option >= 0 else {})
        if not self.encodes:
            decode: Any = base62.decode_canonical if self.option == -2 else base62.decode
            number = base62.decode_fixed(value, **named) if self.option >= 0 else decode(value, **named)
            if number > GREATEST.get(self.new_format, number):
                raise ValueError
            return str(uuid.UUID(int=number)).encode() if self.new_format in TEXTS else number
        encode: Any = base62.encode_fixed if self.option >= 0 else base62.encode
        return encode(base62.decode(base62.encode_uuid(value)) if self.format in TEXTS else value, **named).encode()

    def expected(self) -> list[Any] | None:
        """The rows of the result before the first invalid one, or None if the array is malformed."""
        rows: list[Any] = []
        if not self.has_rows():
            return None
        for row in range(self.count):
            try:
                value = self.value(row)
                rows.append(None if value is None else self.convert(value))
            except LookupError:
                return None
            except ValueError:
                if not self.coerces:
                    break
                rows.append(None)
        return rows

    def result(self, row: int, used: int, nulls: int) -> list[Any]:
        valid = [bool(self.new[0][i // 8] >> i % 8 & 1) for i in range(row)]
        assert valid.count(False) == nulls, (valid, nulls)
        if self.new_format in TEXTS:
            ends = [number_at(self.new_format, self.new[1], i) for i in range(row + 1)]
            assert (ends[0], ends[row]) == (0, used), (ends, used)
            rows: list[Any] = [self.new[2][start:end].tobytes() for start, end in pairwise(ends)]
        else:
            rows = [number_at(self.new_format, self.new[2], i) for i in range(row)]
        # A null row has no string, or 0.
        assert not any(value for value, is_valid in zip(rows, valid) if not is_valid), rows
        return [value if is_valid else None for value, is_valid in zip(rows, valid)]

    def check(self) -> bool:
        """Whether the array is well-formed."""
        expected = self.expected()
        # An array lacks the buffer of its characters if it has none.
        source = self.format, self.offset, self.count, self.validity, self.values, self.characters or None
        try:
            result = self.new_format, *self.new
            row, used, nulls = convert(self.encodes, source, result, self.coerces, self.letters, self.option)
        except ValueError as error:
            assert expected is None and str(error) == MALFORMED, (vars(self), expected, error)
        else:
            assert expected is not None and self.result(row, used, nulls) == expected, (vars(self), expected)
        # A buffer that is not released cannot grow.
        for each in (self.validity, self.values, self.characters, *self.new):
            if each is not None:
                each.append(0)
        return expected is not None


class Inputs(unittest.TestCase):
    def test_random(self) -> None:
        rng, well_formed = random.Random(62), 0
        for _ in range(8_000):
            given = Input(rng, rng.random() < 0.5)
            for _ in range(rng.randrange(3)):
                given.damage()
            well_formed += given.check()
        self.assertLess(3_500, well_formed)


class Runs(unittest.TestCase):
    """Long columns, which the loop converts in several runs. No input is so long. Each third row is null."""

    def encoded(self, count: int) -> Any:
        """The buffers of the result, and what encodes so many rows."""
        new = bytearray((count + 7) // 8), bytearray(4 * count + 4), bytearray(11 * count)
        validity = bitmap([row % 3 != 0 for row in range(24)]) * (count // 24 + 1)
        source = "l", 0, count, validity, bytes(8 * count), None
        return new, lambda: convert(True, source, ("u", *new))

    def test_gil(self) -> None:
        self.assertTrue(others_run(self.encoded(2**20)[1]))

    def check_interrupted(self, new: Any, call: Any) -> None:
        """A signal is handled between runs: the last one is not begun."""

        def interrupt(*unused: object) -> None:
            if new[0][0]:
                raise KeyboardInterrupt
            # The first run has not ended, or the call has not even begun.
            signal.setitimer(signal.ITIMER_REAL, 0.001)

        before = signal.signal(signal.SIGALRM, interrupt)
        try:
            with self.assertRaises(KeyboardInterrupt):
                signal.setitimer(signal.ITIMER_REAL, 0.001)
                call()
        finally:
            signal.signal(signal.SIGALRM, before)
        self.assertEqual(new[0][-1], 0)
        # The buffers are released.
        for each in new:
            each.append(0)

    def test_signals(self) -> None:
        new, call = self.encoded(2**22)
        self.check_interrupted(new, call)
        self.assertEqual(new[0][0], 0b10110110)

    def test_signals_of_bytes(self) -> None:
        """A run of long strings has fewer rows, both of a column and of a result."""
        length, result = 2**25, (bytearray(4), bytearray(), bytearray(256))
        source = "U", 0, 32, None, to_bytes("U", *range(0, 33 * length, length)), pages(32 * length)
        self.check_interrupted(result, lambda: convert(False, source, ("l", *result), letters=LOWEST))
        result = bytearray(4), bytearray(33 * 8), bytearray(32 * length)
        numbers = "l", 0, 32, None, bytes(256), None
        self.check_interrupted(result, lambda: convert(True, numbers, ("U", *result), option=length))


class Objects(unittest.TestCase):
    def test_short_buffers(self) -> None:
        """No row is behind the end of either buffer. Each fourth is not missing."""
        rows: list[object] = [None, float("nan"), "missing", 5] * 4
        for bits, numbers in ((1, 256), (2, 128)):
            self.assertEqual(_base62._pack_rows(rows, "missing", None, False, buffer(bytes(bits)), buffer(bytes(numbers))), 6)

    def test_changed_list(self) -> None:
        """What converts a row can remove the others."""
        rows: list[Any] = [5, Indexed(6), 7]
        with unittest.mock.patch.object(Indexed, "__index__", lambda self: [rows.pop() for _ in range(3)] and 6):
            validity, values = bytearray(1), bytearray(128)
            self.assertEqual(_base62._pack_rows(rows, None, None, False, validity, values), 0)
        self.assertEqual((validity, values[:48]), (b"\3", to_bytes("w", 5, 6, 0)))


def pages(size: int) -> mmap.mmap:
    """Zeros that take no memory."""
    private = mmap.MAP_PRIVATE | mmap.MAP_ANONYMOUS
    try:
        return mmap.mmap(-1, size, flags=private | getattr(mmap, "MAP_NORESERVE", 0x4000))
    except OSError as error:
        raise unittest.SkipTest(f"no {size} bytes of address space: {error}") from error


class Far(unittest.TestCase):
    """Rows whose bytes and bits have indexes of 2^31 and more."""

    def test_offset(self) -> None:
        offset = 2**32 + 2**31 + 11
        validity = pages(offset // 8 + 8)
        validity[(offset + 1) // 8] = 1 << (offset + 1) % 8
        for format, size in SIZES.items():
            values, place = pages((offset + 4) * size), (offset + 1) * size
            values[place : place + 2 * size] = to_bytes(format, *((0, 1) if format in TEXTS else (7, 0)))
            source, new = (format, offset, 2, validity, values, b"7"), (bytearray(1), bytearray(32), bytearray(64))
            if format in TEXTS:
                self.assertEqual(convert(False, source, ("L", *new), True), (2, 0, 1))
                self.assertEqual(memoryview(new[2]).cast("Q")[1], 7)
            else:
                self.assertEqual(convert(True, source, ("u", *new), True), (2, 1, 1))
                self.assertEqual(new[2][:1], b"7")
            values.close()

    def test_small_offsets(self) -> None:
        """Offsets of 32 bits are for fewer than 2^31 characters."""
        given = "l", 0, 1, b"\0", bytes(8), None
        self.assertEqual(convert(True, given, ("u", bytearray(1), bytearray(8), pages(2**31 - 1))), (1, 0, 1))
        with self.assertRaisesRegex(ValueError, MALFORMED):
            convert(True, given, ("u", bytearray(1), bytearray(8), pages(2**31)))

    def test_characters(self) -> None:
        """The last string has more than 2^31 characters, of which nearly all are the zero of its alphabet."""
        end = 2**32 + 2**31 + 2
        characters, values = pages(end), array("B", bytes(8))
        result = "L", bytearray(1), bytearray(), values
        for letters, text, length, number in ((STANDARD, b"LZ", 2, 1337), (LOWEST, b"\1\2", 2**31 + 2, 64)):
            characters[-2:] = text
            source = "U", 0, 1, None, to_bytes("U", end - length, end), characters
            self.assertEqual(convert(False, source, result, letters=letters), (1, 0, 0))
            self.assertEqual(number_at("L", values, 0), number)
