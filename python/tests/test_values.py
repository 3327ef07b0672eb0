"""Tests of each call by the values of tests/values.tsv at the top, whose head says what its rows are."""

import itertools
import sys
import uuid
from decimal import Decimal
from functools import partial
from typing import Any
from urllib.parse import unquote_to_bytes

import base62
from base62 import Alphabet
from calls import OF_ALPHABETS, OF_NUMBERS, VALUES, Call, RaisesTestCase


def rows(kind: str) -> list[list[str]]:
    """The fields of each row of a kind, of which there are some."""
    lines = [line.split("\t") for line in VALUES.read_text("ascii").splitlines()]
    matching = [fields for first, *fields in lines if first == kind]
    assert matching, kind
    return matching


LETTERS = {name: unquote_to_bytes(letters) for name, letters, *_ in rows("alphabet")}
OF_ASCII = {name for name, _, is_ascii, _ in rows("alphabet") if is_ascii == "1"}
ALPHABETS = {name: Alphabet(letters) for name, letters in LETTERS.items()}
MESSAGES = {tuple(expected): unquote_to_bytes(text).decode() for text, *expected in rows("message")}
MESSAGES["overflow",] = "Encoded input represents 2**128 or more, or has more than 22 characters"
# What a message ends with, by the hint of a row.
DIGITS = "; to convert decimal digits, call int()"
UUIDS = "; to encode the string of a UUID, call encode_uuid, encode_uuid_fixed or encode_uuid_key"
HINTS = {"none": "", "decimal": DIGITS, "uuid": UUIDS, "both": DIGITS + UUIDS}
KINDS: dict[str, type[ValueError]] = {
    "empty": base62.EmptyInputError,
    "byte": base62.InvalidByteError,
    "overflow": base62.TooLargeError,
    "zero": base62.NotCanonicalError,
    "length": base62.WrongLengthError,
    "repeated": base62.AlphabetError,
}
DECODINGS: list[Call] = [base62.decode, base62.decode_canonical, base62.decode_uuid, base62.decode_uuid_canonical]
OF_KEYS: list[Call] = [base62.decode_key, base62.decode_uuid_key]
OF_KEYS += [partial(call, width=22) for call in (base62.decode_fixed, base62.decode_uuid_fixed)]


def forms_of_text(escaped: str) -> list[str | bytes]:
    """The bytes of a text, and the str of which they are the UTF-8."""
    text = unquote_to_bytes(escaped)
    try:
        return [text, text.decode()]
    except UnicodeDecodeError:
        return [text]


def forms_of_alphabet(name: str) -> list[str | bytes]:
    letters = LETTERS[name]
    return [ALPHABETS[name], letters, *([letters.decode()] if name in OF_ASCII else [])]


class Values(RaisesTestCase):
    def raises(self, expected: list[str], call: Call, *given: object) -> None:
        """A call raises exactly this error, with the message of its row if there is one, and perhaps a hint."""
        self.assertIn(expected[0], KINDS, "no exception is known for this word of a row")
        error = self.raised(KINDS[expected[0]], call, *given)
        self.assertEqual(vars(error), dict(zip(("byte", "index"), map(int, expected[1:]))))
        self.assertEqual(str(error).removesuffix(UUIDS), MESSAGES.get(tuple(expected), str(error)))

    def test_canonical_texts(self) -> None:
        for name, digits, escaped in rows("encode"):
            texts, number, named = forms_of_text(escaped), int(digits), uuid.UUID(int=int(digits))
            self.assertEqual((base62.digit_count(number), base62.digit_count(named)), (len(texts[0]),) * 2)
            for alphabet in forms_of_alphabet(name):
                for text in texts:
                    self.assertEqual([call(text, alphabet) for call in DECODINGS], [number, number, named, named])
                if name in OF_ASCII:
                    encoded = base62.encode(number, alphabet), base62.encode(named, alphabet), base62.encode_uuid(named, alphabet)
                    self.assertEqual(encoded, (texts[1],) * 3)
                else:
                    self.says("an alphabet for encoding has ASCII characters", ValueError, base62.encode, number, alphabet)

    def test_zeros(self) -> None:
        for name, escaped, number in rows("zeros"):
            for text in forms_of_text(escaped):
                self.assertEqual(base62.decode(text, ALPHABETS[name]), int(number))
                self.assertEqual(base62.decode_uuid(text, ALPHABETS[name]), uuid.UUID(int=int(number)))
                for call in (base62.decode_canonical, base62.decode_uuid_canonical):
                    self.raises(["zero"], call, text, ALPHABETS[name])

    def test_invalid(self) -> None:
        for name, escaped, *expected in rows("decode_error"):
            for text in forms_of_text(escaped):
                for call in DECODINGS:
                    self.raises(expected, call, text, ALPHABETS[name])

    def test_fixed(self) -> None:
        for name, number, width, escaped in rows("fixed"):
            for text in forms_of_text(escaped):
                self.assertEqual(base62.decode(text, ALPHABETS[name]), int(number))
            named = uuid.UUID(int=int(number))
            numbers: list[Any] = [int(number), named]
            forms: list[Any] = [named, named.bytes, str(named)]
            for alphabet in forms_of_alphabet(name) if name in OF_ASCII else []:
                encoded = {base62.encode_fixed(value, int(width), alphabet) for value in numbers}
                encoded |= {base62.encode_uuid_fixed(value, int(width), alphabet) for value in forms}
                self.assertEqual(encoded, {text})
            if (name, width) == ("standard", "22"):
                self.assertEqual({base62.encode_key(int(number)), *map(base62.encode_uuid_key, forms)}, {text})

    def test_decode_fixed(self) -> None:
        for name, width, escaped, *expected in rows("decode_fixed"):
            given: Any = int(width), ALPHABETS[name]
            calls: list[Call] = [lambda text: base62.decode_fixed(text, *given)]
            calls.append(lambda text: base62.decode_uuid_fixed(text, *given).int)
            if (name, width) == ("standard", "22"):
                calls += [base62.decode_key, lambda text: base62.decode_uuid_key(text).int]
            for call, text in itertools.product(calls, forms_of_text(escaped)):
                if expected[0] == "number":
                    self.assertEqual(call(text), int(expected[1]))
                elif expected[0] == "length":
                    exact = {"length": len(unquote_to_bytes(escaped)), "width": min(int(width), sys.maxsize)}
                    message = "Encoded input has {length} byte{s}, not {width}".format(**exact, s="s" * (exact["length"] != 1))
                    error = self.raised(base62.WrongLengthError, call, text)
                    self.assertEqual((str(error), vars(error)), (message, exact))
                else:
                    self.raises(expected, call, text)

    def test_too_narrow(self) -> None:
        for name, number, width in rows("too_narrow"):
            if name in OF_ASCII:
                given, named = (int(width), ALPHABETS[name]), uuid.UUID(int=int(number))
                count = next(count for count in range(1, 23) if int(number) < 62**count)
                message = f"the number needs {count} character{'s' * (count > 1)}, and the width is {width}"
                self.says(message, base62.OutOfRangeError, base62.encode_fixed, int(number), *given)
                self.says(message, base62.OutOfRangeError, base62.encode_uuid_fixed, str(named), *given)

    def test_ranges(self) -> None:
        for name, width, escaped, kind, *expected in rows("range"):
            for prefix in forms_of_text(escaped):
                calls: list[Call] = [lambda prefix: base62.prefix_range(prefix, int(width), ALPHABETS[name])]
                if (name, width) == ("standard", "22"):
                    calls.append(base62.key_range)
                    calls.append(lambda prefix: tuple(map(base62.decode_key, base62.key_bounds(prefix) or ())) or None)
                for call in calls:
                    if kind == "byte":
                        self.raises([kind, *expected], call, prefix)
                    else:
                        self.assertEqual(call(prefix), tuple(map(int, expected)) or None)

    def test_uuid_strings(self) -> None:
        for escaped, name in rows("uuid_string"):
            string = unquote_to_bytes(escaped).decode()
            calls: list[Call] = [base62.encode_uuid, base62.encode_uuid_key, partial(base62.encode_uuid_fixed, width=22)]
            for call in calls:
                if name == "none":
                    self.assertRaises(ValueError, call, string)
                else:
                    self.assertEqual(call(string), call(uuid.UUID(name)))

    def test_hints(self) -> None:
        """A message names the functions that take the string. Bytes of a UUID's digits are a string for none of them."""
        for kind, escaped, hint in rows("hint"):
            given, string = unquote_to_bytes(escaped), unquote_to_bytes(escaped).decode()
            for call in OF_NUMBERS if kind == "encode" else DECODINGS + OF_KEYS:
                for argument, ending in ((string, HINTS[hint]), (given, "")):
                    with self.assertRaises((TypeError, ValueError)) as caught:
                        call(argument)
                    message = str(caught.exception)
                    self.assertEqual(message[len(message.partition(";")[0]) :], ending)
            if hint in ("decimal", "both"):
                self.assertEqual(int(string), Decimal(string))

    def test_repeated(self) -> None:
        for escaped, *expected in rows("repeated"):
            for letters in forms_of_text(escaped):
                for call in OF_ALPHABETS:
                    self.raises(["repeated", *expected], call, letters)
