# SPDX-License-Identifier: MIT
# Copyright (c) 2026 the maintainers of base62 for Rattle
"""What the extension has in Python: its exceptions, the types of arguments, and the conversions of the rarer ones."""

from typing import SupportsIndex
from uuid import UUID, SafeUUID

Number = SupportsIndex | UUID
EncodedString = str | bytes | bytearray | memoryview
AnyUUID = UUID | str | bytes

# The attributes of a UUID, and what UUID(int=..) stores in is_safe if there is no other one. Then the extension creates it by
# setting them.
INT, IS_SAFE = "int", "is_safe"
_SLOTS = getattr(UUID, "__slots__", None)
UNKNOWN = SafeUUID.unknown if _SLOTS == (INT, IS_SAFE, "__weakref__") else None
# Where a Python has the fields that a subclass adds to bytes in another place, an Alphabet is checked on each call.
BYTES_SIZE = bytes.__basicsize__


class _BadByteError(ValueError):
    def __init__(self, message: str = "", byte: int = 0, index: int = 0) -> None:
        super().__init__(message)
        self.byte = byte
        self.index = index


class AlphabetError(_BadByteError):
    """An alphabet repeats a character.

    byte is the first byte that equals an earlier one, and index is its index, counted from 0.
    """


class DecodeError(ValueError):
    """A string does not represent a number below 2**128."""


class EmptyInputError(DecodeError):
    """A string is empty."""


class TooLargeError(DecodeError):
    """A string represents 2**128 or more, or has more than 22 bytes after its leading zeros.

    If a string has several errors, docs/DECODING.md of the project says which one is raised.
    """


class NotCanonicalError(DecodeError):
    """A string represents a number, but has a leading zero."""


class WrongLengthError(DecodeError):
    """A string does not have the given width.

    length is its length in bytes, for a str those of its UTF-8. width is the given one, or sys.maxsize for a greater one.
    """

    def __init__(self, message: str = "", length: int = 0, width: int = 0) -> None:
        super().__init__(message)
        self.length = length
        self.width = width


class InvalidByteError(_BadByteError, DecodeError):
    """A byte of a string is not a character of the alphabet.

    byte is the first such byte, and index is its index, counted from 0. A str has the bytes of its UTF-8; if the alphabet
    is ASCII, the index is also that in the str.
    """


class OutOfRangeError(OverflowError, ValueError):
    """A number is negative, or 2**128 or more, or needs more characters than the width."""


# Where users find them.
for _error in (*DecodeError.__subclasses__(), DecodeError, AlphabetError, OutOfRangeError):
    _error.__module__ = "base62"


def int_to_uuid(number: int) -> UUID:
    """Return the UUID of an int."""
    return UUID(int=number)


def to_bytes(text: EncodedString) -> bytes:
    """Return the bytes of an encoded string that is neither bytes nor a str."""
    # Scalars of NumPy have buffers too.
    if not isinstance(text, (bytearray, memoryview)):
        raise TypeError(f"an encoded string is a str, bytes, bytearray or memoryview, not {type(text).__name__}")
    view = memoryview(text)
    if view.itemsize != 1 or view.ndim != 1:
        raise TypeError("a memoryview of an encoded string has one dimension, of single bytes")
    return bytes(view)


def to_characters(alphabet: object) -> bytes:
    """Return the characters of an alphabet that is neither an Alphabet nor bytes."""
    if not isinstance(alphabet, str):
        raise TypeError(f"an alphabet is an Alphabet, a str or bytes, not {type(alphabet).__name__}")
    return str.encode(alphabet, "ascii")
