# SPDX-License-Identifier: MIT
# Copyright (c) 2026 the maintainers of base62 for Rattle
"""Encodes UUIDs and other integers below 2**128 as short strings in base 62, and decodes them.

The functions call a C library that Frama-C proves.

    >>> import base62
    >>> base62.encode(1337), base62.decode("LZ")
    ('LZ', 1337)
    >>> base62.encode_uuid_key("12345678-1234-5678-1234-567812345678")
    '0YLmNWW2NwaipfRR50HIPA'
    >>> base62.decode_uuid_key("0YLmNWW2NwaipfRR50HIPA")
    UUID('12345678-1234-5678-1234-567812345678')

    encode_fixed(number, width)        pads the string with zeros to exactly width characters
    encode_key(number)                 pads it to 22 characters: such keys sort in numeric order
    encode_uuid(value)                 encodes a UUID as its shortest string
    encode_uuid_fixed(value, width)    pads this string to exactly width characters
    decode_canonical(text)             accepts only what encode returns
    decode_fixed(text, width)          accepts only what encode_fixed returns
    decode_key(text)                   accepts only what encode_key returns
    decode_uuid(text)                  decodes any string to a UUID
    decode_uuid_canonical(text)        accepts only what encode_uuid returns
    decode_uuid_fixed(text, width)     accepts only what encode_uuid_fixed returns
    digit_count(number)                returns the length of encode(number)
    prefix_range(prefix, width)        returns the least and the greatest number whose string begins with prefix
    key_range(prefix)                  returns these two numbers for keys
    key_bounds(prefix)                 returns the keys of these two numbers
    Alphabet(characters)               creates a custom alphabet, which most functions take

help(base62.encode) documents a function.
"""

from base62._base62 import *
from base62._base62 import __version__ as __version__
from base62._types import AlphabetError, AnyUUID, DecodeError, EmptyInputError, EncodedString, InvalidByteError
from base62._types import NotCanonicalError, Number, OutOfRangeError, TooLargeError, WrongLengthError

# In the order of the README.
__all__ = ["encode", "encode_fixed", "encode_key", "encode_uuid", "encode_uuid_fixed", "encode_uuid_key", "decode"]
__all__ += ["decode_canonical", "decode_fixed", "decode_key", "decode_uuid", "decode_uuid_canonical", "decode_uuid_fixed"]
__all__ += ["decode_uuid_key", "digit_count", "prefix_range", "key_range", "key_bounds", "Alphabet", "Number", "AnyUUID"]
__all__ += ["EncodedString", "AnyAlphabet", "EmptyInputError", "InvalidByteError", "TooLargeError", "NotCanonicalError"]
__all__ += ["WrongLengthError", "AlphabetError", "OutOfRangeError", "DecodeError"]

AnyAlphabet = Alphabet | str | bytes


def key_bounds(prefix: EncodedString) -> tuple[str, str] | None:
    """Return the least and the greatest key that begins with prefix, or None if no key does.

    In a database they are bounds for BETWEEN, in a column that compares byte by byte: COLLATE "C" in PostgreSQL, BINARY
    in SQLite. Raises InvalidByteError.

    >>> base62.key_bounds("00000000000000000000L")
    ('00000000000000000000L0', '00000000000000000000Lz')
    """
    ends = key_range(prefix)
    return ends and (encode_key(ends[0]), encode_key(ends[1]))
