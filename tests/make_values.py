#!/usr/bin/env python3
"""What each call has to return, by integers, and the file of such values that the tests of every language read.

    python3 tests/make_values.py    writes tests/values.tsv

The functions follow docs/DEFINITIONS.md and know nothing of the library. As this file is imported, they are checked by
values that are known from outside. A result is a word and its numbers, as in the rows.
"""

import hashlib
import itertools
import uuid
from collections.abc import Iterator
from pathlib import Path

HEAD = r"""
# Results that the calls have to return. tests/make_values.py generates this file: change the model, and run it.
#
# Tabs separate the fields of a row. The first is its kind. Numbers are decimal. In a text, each byte other than 33 to
# 126, each % and each \ is % and two hexadecimal digits. An empty text is an empty field.
#
#   alphabet  NAME  LETTERS  ASCII  ASCENDING  62 letters; 1 or 0: all are ASCII; each is greater than the one before it
#   repeated  LETTERS  BYTE  INDEX             62 bytes that are not an alphabet: the first repeated byte, and its index
#   encode    ALPHABET  NUMBER  TEXT           the canonical text: encoding returns it, and both decodings accept it
#   zeros     ALPHABET  TEXT  NUMBER           decoding returns the number; canonical decoding rejects a leading zero
#   decode_error  ALPHABET  TEXT  FAULT        both decodings reject the text with this error
#   fixed     ALPHABET  NUMBER  WIDTH  TEXT    the text of WIDTH letters, which decoding accepts
#   too_narrow  ALPHABET  NUMBER  WIDTH        the number has no text of WIDTH letters
#   decode_fixed  ALPHABET  WIDTH  TEXT  RESULT  what decoding returns that accepts only texts of WIDTH letters
#   range     ALPHABET  WIDTH  PREFIX  RANGE   the numbers whose texts of WIDTH letters begin with the prefix
#   uuid      NUMBER  UUID  TEXT               the number as a UUID, and its canonical standard text
#   uuid_string  STRING  UUID | none           a string, and the UUID that it stands for, in lowercase with hyphens
#   message   TEXT  FAULT                      the text of an error; for overflow, that of C
#   hint      CALL  STRING  HINT               what an error of CALL for the string names, but in Rust and C
#
# FAULT  empty | overflow | byte BYTE INDEX
#        in messages also: zero (a leading one) | narrow (a buffer is too small) | none (no text has the prefix) |
#        length (is not the width) | uuid (a string is none) | wide (2^64 or more) | repeated BYTE INDEX (in an alphabet)
# RESULT number NUMBER | length | FAULT
# RANGE  numbers LEAST GREATEST | none | byte BYTE INDEX
# CALL   encode (of numbers) | decode (in the standard alphabet)
# HINT   uuid (a function or an option for UUIDs) | decimal (a conversion to an integer) | both | none
#
# The count of a number's digits is the length of its canonical text. An index or a width may be 2^32 - 1 or more: not
# every machine, and not every call, takes it.
""".lstrip()

Result = tuple[str | int, ...]
Row = tuple[str | int | bytes, ...]

LARGEST = 2**128 - 1
KEY = 22
STANDARD = b"0123456789ABCDEFGHIJKLMNOPQRSTUVWXYZabcdefghijklmnopqrstuvwxyz"
ALTERNATIVE = b"0123456789abcdefghijklmnopqrstuvwxyzABCDEFGHIJKLMNOPQRSTUVWXYZ"
LETTERS = {
    "standard": STANDARD,
    "alternative": ALTERNATIVE,
    "reversed": STANDARD[::-1],
    "readable": b"23456789ABCDEFGHJKLMNPQRSTUVWXYZabcdefghijkmnpqrstuvwxyz-_.~!*",
    "lowest": bytes(range(62)),
    "highest": bytes(range(194, 256)),
    # Its zero is the least byte outside of ASCII.
    "border": bytes(range(128, 66, -1)),
}


# The calls


def first_repeat(letters: bytes) -> tuple[int, int]:
    """The first byte that is also at an earlier index, and its index."""
    return next((byte, index) for index, byte in enumerate(letters) if byte in letters[:index])


def text_of(letters: bytes, number: int) -> bytes:
    """The canonical text."""
    rest, digit = divmod(number, 62)
    return (text_of(letters, rest) if rest else b"") + letters[digit : digit + 1]


def fixed_text(letters: bytes, number: int, width: int) -> bytes | None:
    """The text of so many letters, if there is one."""
    text = text_of(letters, number)
    return text.rjust(width, letters[:1]) if len(text) <= width else None


def value(letters: bytes, text: bytes) -> int:
    """The number that letters denote."""
    total = 0
    for letter in text:
        total = total * 62 + letters.index(letter)
    return total


def first_bad(letters: bytes, text: bytes) -> Result | None:
    """The first byte that is not a letter."""
    return next((("byte", byte, index) for index, byte in enumerate(text) if byte not in letters), None)


def decoded(letters: bytes, text: bytes) -> Result:
    """The first case that fits, in the order of docs/DECODING.md."""
    remaining = text.lstrip(letters[:1])
    named = first_bad(letters, text)
    if not text:
        return ("empty",)
    if len(remaining) > 22:
        return ("overflow",)
    if named and first_bad(letters, remaining[:10]):
        return named
    if len(remaining) == 22 and 62**12 * value(letters, remaining[:10]) > LARGEST:
        return ("overflow",)
    if named:
        return named
    if value(letters, remaining) > LARGEST:
        return ("overflow",)
    return "number", value(letters, remaining)


def decoded_fixed(letters: bytes, width: int, text: bytes) -> Result:
    """The same, where another length than the width is a fault, before all others."""
    return decoded(letters, text) if len(text) == width else ("length",)


def range_of(letters: bytes, width: int, prefix: bytes) -> Result:
    """The least and the greatest number whose text of the width begins with the prefix."""
    if named := first_bad(letters, prefix):
        return named
    if width == 0 or len(prefix) > width:
        return ("none",)
    # From 30 on, a greater width changes nothing: a prefix with a letter other than zero has no range.
    span = 62 ** min(width - len(prefix), 30)
    least = value(letters, prefix) * span
    return ("numbers", least, min(least + span - 1, LARGEST)) if least <= LARGEST else ("none",)


def escaped(byte: int) -> str:
    """A byte as a fault shows it."""
    return ("\\" if byte in b"'\"" else "") + chr(byte).encode("unicode_escape").decode()


MESSAGES = {
    "overflow": "Decoded number is 2^128 or more",
    "empty": "Encoded input is an empty string",
    "narrow": "Buffer too small to encode the number",
    "zero": "Encoded input has a leading zero",
    "none": "No string of this width begins with the prefix",
    "length": "Encoded input does not have the given width",
    "uuid": "Not a UUID",
    "wide": "Number is 2^64 or more",
    "byte": "Encoded input contains the invalid byte b'{}' at index {}",
    "repeated": "Alphabet repeats the byte b'{}' at index {}",
}


def message(fault: Result) -> str:
    word, *named = fault
    return MESSAGES[str(word)].format(*[escaped(int(named[0])), named[1]] if named else [])


def forms() -> Iterator[tuple[str, str | None]]:
    """Strings for UUIDs, each with the one that it stands for, and strings for none."""
    for name, fronts in KNOWN_FORMS.items():
        for digits in (name, name.replace("-", "")):
            for string in (digits, digits.upper()):
                yield from ((front + string + ("}" if front == "{" else ""), name) for front in fronts)
    yield from ((string, None) for string in KNOWN_NO_UUIDS)
    # One character has another bit 32, by which uppercase and lowercase letters differ, or another bit 64.
    for string in ("uRN:uUID:01234567-89ab-CDEF-aBcD-Ef0123456789", "{0123456789abcdefABCDEF9876543210}"):
        for place, bit in itertools.product(range(len(string)), (32, 64)):
            other = chr(ord(string[place]) ^ bit)
            if other.lower() != string[place].lower():
                yield string[:place] + other + string[place + 1 :], None


# Values from outside: those that the documentation of the Rust crate base62 2.2.6 states, RFC 4122 and RFC 9562, and
# borders computed by hand.

KNOWN_NUMBERS = [
    (0, b"0", b"0"),
    (1337, b"LZ", b"lz"),
    (2975, b"lz", b"LZ"),
    (1234567890, b"1LY7VK", b"1ly7vk"),
    (691337691337, b"CAcoUun", b"caCOuUN"),
    (189876682536016, b"rustlang", b"RUSTLANG"),
    (96813686712946, b"RUSTLANG", b"rustlang"),
    (17625286683235144704, b"L0000000000", b"l0000000000"),
    (18446744073709551614, b"LygHa16AHYE", b"lYGhA16ahye"),
    (18446744073709551615, b"LygHa16AHYF", b"lYGhA16ahyf"),
    (18464586049103484928, b"M0000000000", b"m0000000000"),
    (6539293958884420617, b"7n42DGM5Tfl", b"7N42dgm5tFL"),
    (38740334223856322559, b"k9n8mt7Fhc7", b"K9N8MT7fHC7"),
    (38740334223856322560, b"k9n8mt7Fhc8", b"K9N8MT7fHC8"),
    (715971350555965203672729121413359851, b"1" * 21, b"1" * 21),
    (44390223734469842627709205527628310763, b"1" * 22, b"1" * 22),
    (92202686130861137968548313400401640448, b"26tF05fvSIgh0000000000", b"26Tf05FVsiGH0000000000"),
    (2**128 - 3, b"7n42DGM5Tflk9n8mt7Fhc5", b"7N42dgm5tFLK9N8MT7fHC5"),
    (2**128 - 2, b"7n42DGM5Tflk9n8mt7Fhc6", b"7N42dgm5tFLK9N8MT7fHC6"),
    (2**128 - 1, b"7n42DGM5Tflk9n8mt7Fhc7", b"7N42dgm5tFLK9N8MT7fHC7"),
]
KNOWN_ZEROS = [(b"00", 0), (b"0LZ", 1337), (b"0" * 22 + b"rustlang", 189876682536016), (b"0" * 100 + b"z", 61)]
KNOWN_REFUSED: list[tuple[bytes, Result]] = [
    (b"", ("empty",)),
    (b"!", ("byte", 33, 0)),
    (b"0!", ("byte", 33, 1)),
    (b"LZ-", ("byte", 45, 2)),
    (b"1" * 23, ("overflow",)),
    (b"!" + b"0" * 22, ("overflow",)),
    (b"!" + b"0" * 21, ("byte", 33, 0)),
    (b"0" * 40 + b"zzzzzzzzz!000000000000", ("byte", 33, 49)),
    (b"zzzzzzzzz!000000000000", ("byte", 33, 9)),
    (b"zzzzzzzzzz!00000000000", ("overflow",)),
    (b"7n42DGM5Tf!00000000000", ("byte", 33, 10)),
    (b"7n42DGM5Tg!00000000000", ("overflow",)),
    (b"7n42DGM5Tflk9n8mt7Fhc!", ("byte", 33, 21)),
    (b"7n42DGM5Tflk9n8mt7Fhc8", ("overflow",)),
    (b"z" * 22, ("overflow",)),
]
KNOWN_FIXED: list[tuple[int, int, bytes | None]] = [
    (0, 0, None),
    (0, 1, b"0"),
    (61, 1, b"z"),
    (62, 1, None),
    (1337, 5, b"000LZ"),
    (LARGEST, 21, None),
    (1337, 22, b"00000000000000000000LZ"),
    (LARGEST, 22, b"7n42DGM5Tflk9n8mt7Fhc7"),
    (2**64 - 1, 22, b"00000000000LygHa16AHYF"),
    (LARGEST, 23, b"07n42DGM5Tflk9n8mt7Fhc7"),
    (1337, 100, b"0" * 98 + b"LZ"),
]
POINTS = [point.encode() for point in "\x80\u07ff\u0800\uffff\U00010000\U0010ffff"]
KNOWN_EXACT: list[tuple[int, bytes, Result]] = [
    (0, b"", ("empty",)),
    (0, b"0", ("length",)),
    (1, b"", ("length",)),
    (1, b"0", ("number", 0)),
    (1, b"LZ", ("length",)),
    (2, b"LZ", ("number", 1337)),
    (3, b"LZ", ("length",)),
    (2, b"0LZ", ("length",)),
    (3, b"0LZ", ("number", 1337)),
    (3, b"LZ-", ("byte", 45, 2)),
    (4, b"LZ-", ("length",)),
    (22, b"!" * 21, ("length",)),
    (22, b"!" + b"0" * 21, ("byte", 33, 0)),
    (22, b"0" * 20 + b"LZ", ("number", 1337)),
    (22, b"0" * 21 + b"LZ", ("length",)),
    (22, b"7n42DGM5Tflk9n8mt7Fhc7", ("number", LARGEST)),
    (22, b"7n42DGM5Tflk9n8mt7Fhc8", ("overflow",)),
    (22, b"z" * 23, ("length",)),
    # The first and the last code points of each size in UTF-8.
    *((len(point) + 1, point + b"0", ("byte", point[0], 0)) for point in POINTS),
    (23, b"z" * 23, ("overflow",)),
    (23, b"07n42DGM5Tflk9n8mt7Fhc7", ("number", LARGEST)),
    (100, b"0" * 98 + b"LZ", ("number", 1337)),
    # Modulo 256 or 2^32 these widths are the length.
    *((width, b"LZ", ("length",)) for width in (258, 2**32 + 2, 2**64 - 1)),
]
LEAST_OF_7 = 305719766687397141968255334843504656384
KNOWN_RANGES: list[tuple[int, bytes, Result]] = [
    (22, b"", ("numbers", 0, LARGEST)),
    (22, b"0", ("numbers", 0, 43674252383913877424036476406214950911)),
    (22, b"00000000000000000000L", ("numbers", 1302, 1363)),
    (22, b"00000000000000000000LZ", ("numbers", 1337, 1337)),
    (22, b"7", ("numbers", LEAST_OF_7, LARGEST)),
    (22, b"7n", ("numbers", 340236514539200045093703517809706795008, LARGEST)),
    # Both factors of the least number of the third prefix are 2^64 or more.
    *((KEY, prefix, ("none",)) for prefix in (b"7o", b"8", b"LygHa16AHYG", b"7n42DGM5Tflk9n8mt7Fhc8", b"0" * 23)),
    (22, b"0-!", ("byte", 45, 1)),
    (22, b"7o!", ("byte", 33, 2)),
    (22, b"0" * 23 + b"!", ("byte", 33, 23)),
    (22, b"z" * 22, ("none",)),
    (22, b"zzzzzzzzzz!00000000000", ("byte", 33, 10)),
    (22, b"zzzzzzzzzzzzzzzzzzzzz!", ("byte", 33, 21)),
    (30, b"z" * 23, ("none",)),
    (30, b"!" + b"z" * 22, ("byte", 33, 0)),
    *((0, prefix, ("none",)) for prefix in (b"", b"0")),
    (0, b"!", ("byte", 33, 0)),
    (1, b"", ("numbers", 0, 61)),
    (1, b"z", ("numbers", 61, 61)),
    (1, b"0z", ("none",)),
    (3, b"000L", ("none",)),
    (5, b"000", ("numbers", 0, 3843)),
    (5, b"000L", ("numbers", 1302, 1363)),
    (7, b"2a", ("numbers", 2 * 62**6 + 36 * 62**5, 2 * 62**6 + 37 * 62**5 - 1)),
    # About 2^63.
    (11, b"A", ("numbers", 10 * 62**10, 11 * 62**10 - 1)),
    (11, b"AzL8n0Y58m7", ("numbers", 2**63 - 1, 2**63 - 1)),
    (11, b"AzL8n0Y58m8", ("numbers", 2**63, 2**63)),
    (11, b"B", ("numbers", 11 * 62**10, 12 * 62**10 - 1)),
    (21, b"", ("numbers", 0, 62**21 - 1)),
    (23, b"", ("numbers", 0, LARGEST)),
    (23, b"0", ("numbers", 0, LARGEST)),
    (23, b"07", ("numbers", LEAST_OF_7, LARGEST)),
    (23, b"1", ("none",)),
    (100, b"0" * 98 + b"LZ", ("numbers", 1337, 1337)),
    (100, b"0" * 78 + b"7", ("numbers", LEAST_OF_7, LARGEST)),
    *((100, prefix, ("none",)) for prefix in (b"0" * 78 + b"8", b"1")),
    (2**32 - 1, b"0" * 30, ("numbers", 0, LARGEST)),
    (2**32 - 1, b"0" * 30 + b"1", ("none",)),
]
KNOWN_UUIDS = [
    (1337, "00000000-0000-0000-0000-000000000539"),
    (143098242404177361603877621312831893704, "6ba7b810-9dad-11d1-80b4-00c04fd430c8"),
    (113059749145936325402354257176981405696, "550e8400-e29b-41d4-a716-446655440000"),
    (1989357241971137676463954034883508623, "017f22e2-79b0-7cc3-98c4-dc0c0c07398f"),
    (LARGEST, "ffffffff-ffff-ffff-ffff-ffffffffffff"),
]
# Strings for UUIDs: of RFC 9562, of RFC 8141, by which urn:uuid: has no case, and of manuals of Python and PostgreSQL.
KNOWN_FORMS = {
    "f81d4fae-7dec-11d0-a765-00a0c91e6bf6": ["", "urn:uuid:", "URN:UUID:", "Urn:uuid:", "urn:UUID:"],
    "ffffffff-ffff-ffff-ffff-ffffffffffff": ["", "{", "urn:uuid:"],
    "00000000-0000-0000-0000-000000000000": ["", "{", "urn:uuid:"],
    "017f22e2-79b0-7cc3-98c4-dc0c0c07398f": ["", "{", "urn:uuid:", "URN:UUID:"],
    "12345678-1234-5678-1234-567812345678": ["", "{", "urn:uuid:"],
    "a0eebc99-9c0b-4ef8-bb6d-6bb9bd380a11": ["", "{"],
}
# A manual has some of these too, and Python takes many.
KNOWN_NO_UUIDS = """
    1337 {} - urn:uuid urn:uuid: uuid: 0x1337 f81d4fae-7dec-11d0-a765 00000000-0000-0000-0000-00000000000g
    1234567812345678123456781234567 123456781234567812345678123456780 12345678123456781234567812345678-
    -12345678123456781234567812345678 1-2345678123456781234567812345678 12345678-123456781234567812345678
    12345678--1234-5678-1234-567812345678 123456781234-5678-1234-567812345678 12345678-1234-5678-1234567812345678
    1234567-81234-5678-1234-567812345678 12345678-12345-678-1234-567812345678 12345678-1234-5678-12345-67812345678
    1234-5678-1234-5678-1234-567812345678 12345678-1234-5678-1234-5678-12345678 12345678-1234-5678-1234-567812345678-
    2345678-1234-5678-1234-567812345678 12345678-1234-5678-1234-56781234567 12345678-1234-5678-1234-5678123456780
    12345678_1234_5678_1234_567812345678 12345678-1234-5678-1234_567812345678 {12345678-12345678-12345678-12345678}
    {12345678123456781234567812345678 12345678123456781234567812345678} }12345678123456781234567812345678{
    {12345678-1234-5678-1234-567812345678 12345678-1234-5678-1234-567812345678} {1234567812345678123456781234567}
    {123456781234567812345678123456781 112345678123456781234567812345678} [12345678-1234-5678-1234-567812345678}
    {12345678-1234-5678-1234-567812345678- -12345678-1234-5678-1234-567812345678} {12345678-1234-5678-1234-567812345678]
    {{12345678-1234-5678-1234-567812345678}} (12345678-1234-5678-1234-567812345678) {123456781234567812345678123456780}
    {urn:uuid:12345678-1234-5678-1234-567812345678} urn:uuid:{12345678-1234-5678-1234-567812345678}
    urn:uuid:12345678-1234-5678-1234-567812345678} {urn:uuid:12345678-1234-5678-1234-567812345678
    uuid:12345678123456781234567812345678 urn:12345678123456781234567812345678 urn:uuid12345678123456781234567812345678
    urn:uuid::12345678123456781234567812345678 urn:oid:12345678-1234-5678-1234-567812345678
    urn:uuid:urn:uuid:12345678123456781234567812345678 urn:uuid:1-2345678123456781234567812345678
    urn:uu\u0131d:12345678123456781234567812345678 +2345678123456781234567812345678 +1234567812345678123456781234567
    1234567812345678_123456781234567 0x345678123456781234567812345678 0X345678123456781234567812345678
    g2345678123456781234567812345678 1234567812345678123456781234567g 1234567/123456781234567812345678
    1234567:123456781234567812345678 1234567@123456781234567812345678 1234567`123456781234567812345678
    \u06612345678123456781234567812345678 1234567812345678123456781234567\uff18
    \uff1112345678-1234-5678-1234-567812345678
""".split()
KNOWN_NO_UUIDS += ["", " ", "12345678 12345678 12345678 1234567", "12345678 1234 5678 1234 567812345678", "\0" * 16]
KNOWN_NO_UUIDS += [" 2345678123456781234567812345678", "1234567812345678123456781234567\n", "123456781234567\x00" * 2]
KNOWN_NO_UUIDS += [" 12345678-1234-5678-1234-567812345678", "12345678123456781234567812345678\n"]
KNOWN_MESSAGES: list[tuple[str, Result]] = [
    ("Encoded input contains the invalid byte b'-' at index 2", ("byte", 45, 2)),
    ("Encoded input contains the invalid byte b'\\xff' at index 18446744073709551615", ("byte", 255, 2**64 - 1)),
    ("Encoded input contains the invalid byte b'\\n' at index 10", ("byte", 10, 10)),
    ("Alphabet repeats the byte b'\\'' at index 61", ("repeated", 39, 61)),
    ("Alphabet repeats the byte b'0' at index 1", ("repeated", 48, 1)),
]


def check_model() -> None:
    for number, standard, alternative in KNOWN_NUMBERS:
        for letters, text in ((STANDARD, standard), (ALTERNATIVE, alternative)):
            assert text_of(letters, number) == text, text
            assert decoded(letters, text) == ("number", number), text
    for text, number in KNOWN_ZEROS:
        assert decoded(STANDARD, text) == ("number", number), text
    for text, fault in KNOWN_REFUSED:
        assert decoded(STANDARD, text) == fault, text
    for number, width, filled in KNOWN_FIXED:
        assert fixed_text(STANDARD, number, width) == filled, (number, width)
    for width, text, result in KNOWN_EXACT:
        assert decoded_fixed(STANDARD, width, text) == result, (width, text)
    for width, prefix, result in KNOWN_RANGES:
        assert range_of(STANDARD, width, prefix) == result, (width, prefix)
    assert range_of(ALTERNATIVE, 2, b"l") == ("numbers", 1302, 1363)
    for number, name in KNOWN_UUIDS:
        assert uuid.UUID(name).int == number, name
    for string, name in forms():
        # Python knows urn:uuid: in lowercase only.
        assert name is None or uuid.UUID(string.lower()) == uuid.UUID(name), string
    for text_of_fault, fault in KNOWN_MESSAGES:
        assert message(fault) == text_of_fault, fault
    assert first_repeat(b"a" * 62) == (97, 1)
    assert first_repeat(STANDARD[:-1] + b"7") == (55, 61)


check_model()


# The choice of values


def drawn(count: int, seed: str) -> list[int]:
    """Numbers of each length from 1 to 128 bits, without a pattern and always the same."""
    digest = hashlib.shake_128(seed.encode()).digest(16 * count)
    wide = [int.from_bytes(digest[16 * i : 16 * i + 16], "big") for i in range(count)]
    return [number >> i % 128 for i, number in enumerate(wide)]


def numbers() -> list[int]:
    """Each power of 62 and of 2 with its neighbours, letters at each place, and others."""
    centers = [62**power for power in range(22)] + [2**power for power in range(129)]
    near = [center + beside for center in centers for beside in (-1, 0, 1)]
    # In these 62 texts of 20 or 21 letters each letter is at each place, counted from the end.
    turned = [sum((place * 7 + turn) % 62 * 62**place for place in range(21)) for turn in range(62)]
    known = [number for number, *_ in KNOWN_NUMBERS + KNOWN_UUIDS]
    return list(dict.fromkeys(n for n in known + near + turned + drawn(256, "numbers") if n <= LARGEST))


def some_numbers(step: int) -> list[int]:
    """One in so many, and those at borders: of 53, 63, 64 and 128 bits, and of each length."""
    borders = [0, 61, 2**53, 2**63 - 1, 2**63, 2**64 - 1, 2**64, LARGEST - 1, LARGEST]
    return list(dict.fromkeys([*borders, *(62**power for power in range(22)), *numbers()[::step]]))


def over(letters: bytes, text: bytes) -> bytes:
    """A standard text in the letters of another alphabet. Its other bytes become bytes that are not letters there."""
    others = [byte for byte in range(256) if byte not in letters]
    at_others = [byte for byte in range(256) if byte not in STANDARD]
    return text.translate(bytes.maketrans(STANDARD + bytes(at_others), letters + bytes(others)))


def refused_texts() -> Iterator[bytes]:
    """Standard texts with a byte that is not a letter, and texts of numbers that are too large."""
    no_letters = [byte for byte in range(256) if byte not in STANDARD]
    turn = 0
    # In these each such byte is somewhere, and one is at each place of each length.
    for length in range(1, 24):
        for place in range(length):
            text = bytearray(b"z1Z"[turn % 3 : turn % 3 + 1] * length)
            text[place] = no_letters[turn % len(no_letters)]
            yield bytes(text)
            turn += 1
    # Two such bytes, leading zeros, and the borders of the first ten bytes and of the number.
    for place in range(22):
        for front in (b"7n42DGM5Tf", b"7n42DGM5Tg", b"0007n42DGM5Tg", b"1000000000"):
            text = bytearray(front.ljust(22 + len(front) - len(front.lstrip(b"0")), b"0"))
            text[place] = 0x80 + place
            text[-1] = ord("/")
            yield bytes(text)
        yield b"0" * place + b"!"
        yield b"0" * place + b"7n42DGM5Tflk9n8mt7Fhc8"
    for number in [LARGEST + 1, LARGEST + 2, 2**129, 62**22 - 1, 62**22, 62**23, 62**40, *drawn(32, "too large")]:
        yield text_of(STANDARD, number + LARGEST + 1 if number <= LARGEST else number)
    yield b"0" * 300 + b"_"
    # A byte does not hold these lengths.
    yield b"z" * 261
    yield b"\xc3\xa9" * 12


def prefixes() -> Iterator[tuple[int, bytes]]:
    """Standard prefixes of each length and one more, for widths below, at and above that of a key."""
    for width in (1, 2, 3, 7, 10, 11, 12, 13, 20, 21, 22, 23, 40):
        largest = text_of(STANDARD, LARGEST).rjust(width, b"0")
        for length in range(min(width, 24) + 2):
            chosen = largest[:length] if length <= width else b"0" * length
            yield width, chosen
            if length:
                yield width, chosen[:-1] + (b"8" if length % 2 else b"o")
                yield width, chosen[:-1] + b"0"
            if length % 4 == 3:
                yield width, chosen[:-2] + b"-" + chosen[-1:]
    # A byte holds neither these widths nor these lengths.
    yield 260, b"0" * 258 + b"L"
    yield 300, b"1" * 260
    yield 300, b"1" * 260 + b"-"
    for number in drawn(64, "prefixes"):
        yield number % 40, text_of(STANDARD, number >> 6)[: number % 7]


# The rows


def rows_of_repeats() -> Iterator[tuple[str, bytes, int, int]]:
    """Letters of which one is repeated at each index."""
    chosen = [b"a" * 62, b"\0" * 62, bytes(range(31)) * 2, STANDARD[:-2] + b"zz"]
    for later in range(1, 62):
        letters = bytearray([*LETTERS.values()][later % len(LETTERS)])
        letters[later] = letters[later * later % 62 % later]
        chosen.append(bytes(letters))
    for repeating in chosen:
        yield "repeated", repeating, *first_repeat(repeating)


def rows_of_texts(alphabet: str, step: int) -> Iterator[Row]:
    """The rows of decoding and encoding, for one number and one text in so many."""
    letters = LETTERS[alphabet]
    for number in some_numbers(step):
        yield "encode", alphabet, number, text_of(letters, number)
    for count, number in enumerate(numbers()[:: 5 * step]):
        zeros = (1, 2, 9, 10, 21, 22, 23, 40)[count % 8]
        yield "zeros", alphabet, letters[:1] * zeros + text_of(letters, number), number
    for text, number in KNOWN_ZEROS:
        yield "zeros", alphabet, over(letters, text), number
    for text in (over(letters, text) for text in ([text for text, _ in KNOWN_REFUSED] + [*refused_texts()])):
        result = decoded(letters, text)
        assert result[0] != "number", text
        yield "decode_error", alphabet, text, *result


def rows_of_widths(alphabet: str, step: int) -> Iterator[Row]:
    letters = LETTERS[alphabet]
    pairs = [(number, width) for number, width, _ in KNOWN_FIXED]
    for number in some_numbers(step):
        count = len(text_of(letters, number))
        others = (number % 23, 23, 30) if alphabet == "standard" else (number % 31,)
        pairs += [(number, width) for width in (count - 1, count, count + 1, KEY, *others)]
    for number, width in dict.fromkeys(pairs):
        text = fixed_text(letters, number, width)
        if text is None:
            yield "too_narrow", alphabet, number, width
        else:
            yield "fixed", alphabet, number, width, text


def rows_of_exact(alphabet: str, step: int) -> Iterator[Row]:
    """Texts at their own length, and at widths beside it. Of keys one has a bad byte at each index."""
    letters = LETTERS[alphabet]
    largest = text_of(STANDARD, LARGEST)
    pairs = [(width, text) for width, text, _ in KNOWN_EXACT]
    pairs += [(KEY, largest[:index] + b"-" + largest[index + 1 :]) for index in range(KEY)]
    for text in [text_of(STANDARD, number) for number in some_numbers(2 * step)] + [*refused_texts()][:: 2 * step]:
        padded = text.rjust(KEY, b"0")
        pairs += [(len(text) + beside, text) for beside in (-1, 0, 1)] + [(KEY, text), (len(padded), padded)]
    for width, standard in dict.fromkeys(pairs):
        text = over(letters, standard)
        yield "decode_fixed", alphabet, width, text, *decoded_fixed(letters, width, text)


def rows_of_ranges(alphabet: str, step: int) -> Iterator[Row]:
    letters = LETTERS[alphabet]
    pairs = [(width, prefix) for width, prefix, _ in KNOWN_RANGES]
    pairs += [(KEY, text_of(STANDARD, LARGEST)[:length]) for length in range(KEY + 1)]
    for width, standard in pairs + [*prefixes()][::step]:
        prefix = over(letters, standard)
        yield "range", alphabet, width, prefix, *range_of(letters, width, prefix)


def rows_of_messages() -> Iterator[Row]:
    faults: list[Result] = [fault for _, fault in KNOWN_MESSAGES]
    faults += [(word,) for word, text in MESSAGES.items() if "{}" not in text]
    indices = [0, 7, *(10**power - low for power in range(1, 20) for low in (1, 0)), 2**32 - 1, 2**64 - 1]
    faults += [("byte", byte, indices[byte % len(indices)]) for byte in range(256)]
    faults += [("repeated", byte, index) for _, _, byte, index in rows_of_repeats()]
    faults += [("repeated", byte, byte % 61 + 1) for byte in range(0, 256, 8)]
    for fault in faults:
        yield "message", message(fault).encode(), *fault


def rows_of_hints() -> Iterator[Row]:
    """Strings that were given to a call of numbers. Those that decode, such as 32 zeros, have no error."""
    strings = dict(forms()) | dict.fromkeys(["", "0", "1337", "007", str(LARGEST), str(LARGEST + 1), "9" * 100])
    strings |= dict.fromkeys([" 1337", "1337\n", "+1337", "-5", "1,337", "1_337", "1337.0", "0x539", "1e3", "LZ", "null"])
    strings |= dict.fromkeys(["\u0661\u0663\u0663\u0667", "\uff11\uff13\uff13\uff17", "\u00b2", "1337\u00b2", "\u2167"])
    for string, name in strings.items():
        is_decimal = string.isascii() and string.isdigit()
        hint = ("both" if is_decimal else "uuid") if name else ("decimal" if is_decimal else "none")
        yield "hint", "encode", string.encode(), hint
        if decoded(STANDARD, string.encode())[0] != "number":
            yield "hint", "decode", string.encode(), "uuid" if name else "none"


def rows() -> Iterator[Row]:
    for name, letters in LETTERS.items():
        yield "alphabet", name, letters, int(letters.isascii()), int(sorted(letters) == [*letters])
    yield from rows_of_repeats()
    for alphabet in LETTERS:
        step = {"standard": 1, "alternative": 2}.get(alphabet, 7)
        yield from rows_of_texts(alphabet, step)
        yield from rows_of_widths(alphabet, 7 * step)
        yield from rows_of_exact(alphabet, 7 * step)
        yield from rows_of_ranges(alphabet, 2 * step)
    for number in [number for number, *_ in KNOWN_UUIDS] + numbers()[::8]:
        yield "uuid", number, str(uuid.UUID(int=number)), text_of(STANDARD, number)
    yield from (("uuid_string", string.encode(), name or "none") for string, name in forms())
    yield from rows_of_hints()
    yield from rows_of_messages()


def field(value: str | int | bytes) -> str:
    if not isinstance(value, bytes):
        return str(value)
    return "".join(chr(byte) if 33 <= byte <= 126 and byte not in b"%\\" else f"%{byte:02X}" for byte in value)


def main() -> None:
    lines = dict.fromkeys("\t".join(map(field, row)) for row in rows())
    Path(__file__).with_name("values.tsv").write_bytes((HEAD + "".join(f"{line}\n" for line in lines)).encode())


if __name__ == "__main__":
    main()
