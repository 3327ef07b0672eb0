# SPDX-License-Identifier: MIT
# Copyright (c) 2026 the maintainers of base62 for Rattle
# Hand-written: the types of the extension, and its docstrings, which setup.py compiles into it.
from typing import ClassVar, Self, SupportsIndex, final
from uuid import UUID

from base62 import AnyAlphabet
from base62._types import AnyUUID, EncodedString, Number

__version__: str

@final
class Alphabet(bytes):
    """A custom alphabet: 62 distinct bytes, in the order of their digit values.

    It is immutable and cannot be subclassed. characters, an ASCII str or bytes, is checked here once; a str or bytes
    passed to a function is checked on every call. With an alphabet that has non-ASCII bytes, functions that encode raise
    ValueError.

    Raises AlphabetError if a byte is repeated, ValueError if there are not 62, and UnicodeEncodeError if a str is not
    ASCII.

    >>> custom = base62.Alphabet("23456789ABCDEFGHJKLMNPQRSTUVWXYZabcdefghijkmnpqrstuvwxyz-_.~!*")
    >>> base62.encode(62, custom), base62.decode("32", custom)
    ('32', 62)
    """

    STANDARD: ClassVar[Alphabet]
    ALTERNATIVE: ClassVar[Alphabet]
    def __new__(cls, characters: str | bytes) -> Self: ...

def encode(number: Number, alphabet: AnyAlphabet = Alphabet.STANDARD) -> str:
    """Return the encoded string of a number: 1 to 22 characters, without leading zeros.

    number is an int from 0 to 2**128 - 1, an object whose __index__() returns such an int, or a uuid.UUID.

    Raises OutOfRangeError for any other number, ValueError if the alphabet is not ASCII, and what Alphabet raises.

    >>> import uuid
    >>> base62.encode(1337), base62.encode(1337, base62.Alphabet.ALTERNATIVE), base62.encode(0)
    ('LZ', 'lz', '0')
    >>> base62.encode(uuid.UUID("12345678-1234-5678-1234-567812345678"))
    'YLmNWW2NwaipfRR50HIPA'
    """

def encode_uuid(value: AnyUUID, alphabet: AnyAlphabet = Alphabet.STANDARD) -> str:
    """Return the encoded string of a UUID's 128-bit integer, UUID.int.

    value is a uuid.UUID, its 16 bytes, or a str of its 32 hexadecimal digits, uppercase or lowercase, with or without
    hyphens, optionally in braces or after urn:uuid:. The bits of its version and variant are not checked.

    Raises ValueError for any other str or bytes, and what encode raises for the alphabet.

    >>> base62.encode_uuid("{12345678-1234-5678-1234-567812345678}")
    'YLmNWW2NwaipfRR50HIPA'
    """

def encode_fixed(number: Number, width: SupportsIndex, alphabet: AnyAlphabet = Alphabet.STANDARD) -> str:
    """Return the encoded string of a number, padded with leading zeros to exactly width characters.

    Strings of the same width sort in numeric order if the alphabet's characters are in ascending byte order, as in
    Alphabet.STANDARD. Above a width of 64, a buffer of width bytes is allocated besides the result.

    Raises OutOfRangeError if the number needs more characters, ValueError if the width is negative, MemoryError if an
    allocation fails, and what encode raises.

    >>> base62.encode_fixed(1337, 4)
    '00LZ'
    """

def encode_uuid_fixed(value: AnyUUID, width: SupportsIndex, alphabet: AnyAlphabet = Alphabet.STANDARD) -> str:
    """Like encode_fixed, but encode a UUID in any form that encode_uuid accepts.

    >>> base62.encode_uuid_fixed("12345678-1234-5678-1234-567812345678", 24)
    '000YLmNWW2NwaipfRR50HIPA'
    """

def encode_key(number: Number) -> str:
    """Return the key of a number: its standard string, padded with leading zeros to 22 characters.

    Keys sort in numeric order. number may be a uuid.UUID. Raises OutOfRangeError as encode does.

    >>> base62.encode_key(1337)
    '00000000000000000000LZ'
    """

def encode_uuid_key(value: AnyUUID) -> str:
    """Like encode_key, but encode a UUID in any form that encode_uuid accepts.

    >>> base62.encode_uuid_key("12345678-1234-5678-1234-567812345678")
    '0YLmNWW2NwaipfRR50HIPA'
    """

def digit_count(number: Number) -> int:
    """Return the length of the encoded string of a number, from 1 to 22.

    Raises OutOfRangeError as encode does.

    >>> base62.digit_count(1337)
    2
    """

def decode(text: EncodedString, alphabet: AnyAlphabet = Alphabet.STANDARD) -> int:
    """Return the number that a string represents, from 0 to 2**128 - 1. Leading zeros are ignored.

    A str is encoded as UTF-8 first. A bytearray and a memoryview are copied.

    Raises EmptyInputError, InvalidByteError or TooLargeError, and what Alphabet raises.

    >>> base62.decode("00LZ"), base62.decode(b"lz", base62.Alphabet.ALTERNATIVE)
    (1337, 1337)
    >>> base62.decode("7n42DGM5Tflk9n8mt7Fhc8")
    Traceback (most recent call last):
    base62.TooLargeError: Encoded input represents 2**128 or more, or has more than 22 characters
    """

def decode_canonical(text: EncodedString, alphabet: AnyAlphabet = Alphabet.STANDARD) -> int:
    """Like decode, but accept only canonical strings: those that encode returns.

    Each number has exactly one. Raises NotCanonicalError if decode accepts the string, but it has a leading zero, and
    otherwise what decode raises.

    >>> base62.decode_canonical("LZ"), base62.decode_canonical("0")
    (1337, 0)
    >>> base62.decode_canonical("00LZ")
    Traceback (most recent call last):
    base62.NotCanonicalError: Encoded input has a leading zero
    """

def decode_fixed(text: EncodedString, width: SupportsIndex, alphabet: AnyAlphabet = Alphabet.STANDARD) -> int:
    """Like decode, but accept only strings of exactly width bytes: those that encode_fixed returns.

    Each number has at most one. Raises WrongLengthError if the string has another length, ValueError if the width is
    negative, and otherwise what decode raises.

    >>> base62.decode_fixed("00LZ", 4)
    1337
    """

def decode_key(text: EncodedString) -> int:
    """Like decode, but accept only keys: those that encode_key returns, of which each number has one.

    Raises WrongLengthError if the string does not have 22 bytes, and otherwise what decode raises.

    >>> base62.decode_key("00000000000000000000LZ")
    1337
    """

def decode_uuid(text: EncodedString, alphabet: AnyAlphabet = Alphabet.STANDARD) -> UUID:
    """Return the UUID whose 128-bit integer a string represents.

    Every integer below 2**128 is the int of exactly one UUID: the bits of its version and variant are not checked.
    Raises what decode raises.

    >>> base62.decode_uuid("YLmNWW2NwaipfRR50HIPA")
    UUID('12345678-1234-5678-1234-567812345678')
    """

def decode_uuid_canonical(text: EncodedString, alphabet: AnyAlphabet = Alphabet.STANDARD) -> UUID:
    """Like decode_uuid, but accept only canonical strings: those that encode_uuid returns.

    Raises what decode_canonical raises.

    >>> base62.decode_uuid_canonical("YLmNWW2NwaipfRR50HIPA")
    UUID('12345678-1234-5678-1234-567812345678')
    """

def decode_uuid_fixed(text: EncodedString, width: SupportsIndex, alphabet: AnyAlphabet = Alphabet.STANDARD) -> UUID:
    """Like decode_uuid, but accept only strings of exactly width bytes: those that encode_uuid_fixed returns.

    Raises what decode_fixed raises.

    >>> base62.decode_uuid_fixed("000YLmNWW2NwaipfRR50HIPA", 24)
    UUID('12345678-1234-5678-1234-567812345678')
    """

def decode_uuid_key(text: EncodedString) -> UUID:
    """Like decode_uuid, but accept only keys: those that encode_uuid_key returns, of which each UUID has one.

    Raises what decode_key raises.

    >>> base62.decode_uuid_key("0YLmNWW2NwaipfRR50HIPA")
    UUID('12345678-1234-5678-1234-567812345678')
    """

def key_range(prefix: EncodedString) -> tuple[int, int] | None:
    """Return the least and the greatest number whose key begins with prefix, or None if no key does.

    Raises InvalidByteError.

    >>> base62.key_range("00000000000000000000L")
    (1302, 1363)
    """

def prefix_range(
    prefix: EncodedString, width: SupportsIndex, alphabet: AnyAlphabet = Alphabet.STANDARD
) -> tuple[int, int] | None:
    """Return the least and the greatest number whose string of this width begins with prefix.

    The strings are those of encode_fixed. Return None if there is no such number. The width is unbounded.

    Raises InvalidByteError, ValueError if the width is negative, and what Alphabet raises.

    >>> base62.prefix_range("00L", 4)
    (1302, 1363)
    """

# For base62.columns. A type is a letter, as _columns.c says.
_Source = tuple[str, int, int, object, object, object]
_Result = tuple[str, object, object, object]

def _convert_rows(
    encodes: bool, alphabet: Alphabet, width: int, source: _Source, result: _Result, coerces: bool, /
) -> tuple[int, int, int]:
    """Encode rows of numbers with the width, or with no leading zeros if it is -1. Or decode rows of strings of the width,
    of any length if it is -1, or canonical ones if -2.

    source is a type, an offset, the count of rows, and the buffers of validity, values and characters; result a type, and
    the buffers of validity, offsets and values. Return how many rows are converted before the first invalid one, the
    length of the strings of the result, and how many are null. Raises ValueError if a buffer is too short, or has such
    offsets.
    """

def _pack_rows(rows: list[object], missing: object, decimal: object, are_uuids: bool, validity: object, values: object, /) -> int:
    """Store numbers as 16 bytes each, in buffers of zeros, and set the bits of rows that are not missing.

    Return how many rows are missing: None, NaN, and the object missing. A number may have the type decimal, if its string
    has digits alone. Raises what encode raises, or encode_uuid, or ValueError for another decimal.
    """
