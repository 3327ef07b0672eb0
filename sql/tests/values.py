"""Calls of the functions with the results that they have to return, by the values that all packages are tested with."""

import re
from collections.abc import Callable, Iterator
from pathlib import Path
from typing import Any, NamedTuple
from urllib.parse import unquote_to_bytes
from uuid import UUID

TOP = Path(__file__).resolve().parents[2]
ROWS = [line.split("\t") for line in (TOP / "tests/values.tsv").read_text().split("\n") if line and not line.startswith("#")]
README, KEYS = ((TOP / "sql" / page).read_text() for page in ("README.md", "KEYS.md"))
HEADER = (TOP / "c/base62.h").read_text()


class Text(bytes):
    """The bytes of an argument that is a text, which may contain a null byte and need not be UTF-8."""


class Width(int):
    """An argument that is a width."""


class Error(NamedTuple):
    code: str
    message: str

    def of(self, value: bytes, hint: str = "") -> "Error":
        return Error(self.code, self.message + hint + shown(value))


class Call(NamedTuple):
    """The name is that of the function without base62_. Its last argument, if it is a str, is an alphabet."""

    name: str
    arguments: tuple[Any, ...]
    result: Any


class Database(NamedTuple):
    """Parts of names of functions, each with what a number is for them, or None if they do not take it."""

    encoded: list[tuple[str, Callable[[int], Any]]]
    decoded: dict[str, Callable[[int], Any]]
    # The part for numbers of 2^63 or more.
    wide: str
    # By the part for numbers, those with an error.
    invalid_numbers: dict[str, dict[Any, Error]]
    invalid_widths: tuple[int, ...]


def bigint(number: int) -> int | None:
    return number if number <= BIGINT else None


def uuid(number: int) -> UUID:
    return UUID(int=number)


def text_of(value: Any) -> str:
    """An argument or a result as SQL casts it to a text, or the code and the message of an error."""
    if isinstance(value, (Text, Error)):
        return value.decode() if isinstance(value, Text) else " ".join(value)
    return str(value).lower() if isinstance(value, bool) else str(value)


def rows(kind: str) -> list[list[str]]:
    return [row[1:] for row in ROWS if row[0] == kind]


def of_ascii(kind: str) -> list[list[str]]:
    """The rows whose alphabet has ASCII characters, which stand in place of its name."""
    table = [[ALPHABETS[row[0]], *row[1:]] for row in rows(kind) if row[0] in ALPHABETS]
    assert len(table) > 50, kind
    return table


def of_widths(kind: str) -> list[tuple[Any, ...]]:
    """Such rows with a width that SQL has. Their string or prefix is a Text."""
    given = ((row, Width(row[1])) for row in of_ascii(kind))
    return [(row[0], width, Text(unquote_to_bytes(row[2])), *row[3:]) for row, width in given if 0 < width <= WIDEST]


# Alphabets of ASCII characters other than a null byte.
ALPHABETS = {
    name: unquote_to_bytes(letters).decode()
    for name, letters, ascii, _ in rows("alphabet")
    if ascii == "1" and "%00" not in letters
}
STANDARD, OWN = ALPHABETS["standard"], ALPHABETS["reversed"]
BIGINT = 2**63 - 1
KEY = 22
# README has the greatest width, and how many bytes of a string a message shows.
(WIDEST,) = map(int, re.findall(r"A width goes up to (\d+)", README))
(MOST_SHOWN,) = map(int, re.findall(r"at most (\d+) bytes", README))
# The message of each error and of each byte. The index follows.
MESSAGES = {tuple(row[1:3]): re.sub(r"\d+$", "", unquote_to_bytes(row[0]).decode()) for row in rows("message")}
MESSAGES["overflow",] = "Encoded input represents 2^128 or more, or has more than 22 characters"
# Canonical standard texts by their numbers.
TEXTS = {int(number): text for alphabet, number, text in rows("encode") if alphabet == "standard"}


# The strings of UUIDs, among them those that the file has.
HEX = rb"([0-9a-f]{32}|[0-9a-f]{8}(-[0-9a-f]{4}){3}-[0-9a-f]{12})"
UUIDS = re.compile(rb"(?i)(urn:uuid:)?" + HEX + rb"|\{" + HEX + rb"\}")


def uuid_hint(form: str, text: bytes) -> str:
    """What the error of a function of this form names if a string is that of a UUID."""
    return f"; to encode a UUID use base62_encode_uuid{form.replace('_canonical', '')}" if UUIDS.fullmatch(text) else ""


def shown(value: bytes) -> str:
    """What a message shows of a string: MOST_SHOWN bytes, of which each that is not printable ASCII is \\xff."""
    characters = [chr(b).replace("\\", 2 * "\\") if 32 <= b < 127 else f"\\x{b:02x}" for b in value[:MOST_SHOWN]]
    return f": '{''.join(characters)}{'...' * (len(value) > MOST_SHOWN)}'"


def error_of(fields: list[str], text: bytes, width: int | None = None) -> Error:
    """An error of the file, for a string, a prefix or an alphabet, without what the message shows of it."""
    code = {"overflow": "22003", "repeated": "22023"}.get(fields[0], "22P02")
    if fields[0] == "length":
        return Error(code, f"Encoded input has {len(text)} byte{'s' * (len(text) != 1)}, not {width}")
    return Error(code, MESSAGES[tuple(fields[:2])] + "".join(fields[2:]))


def negative(*numbers: int) -> dict[Any, Error]:
    return {number: Error("22003", f"the number is negative: {number}") for number in numbers}


def no_width(width: int) -> Error:
    return Error("22023", f"the width is not from 1 to 1000: {width}")


def no_alphabet(letters: bytes) -> Error:
    mistake = f"{len(letters)} character{'s' * (len(letters) != 1)}, not 62" if b"\0" not in letters else "a null character"
    if letters in (b"standard", b"alternative"):
        mistake += f"; write '{ALPHABETS[letters.decode()]}'"
    return Error("22023", f"the alphabet has {mistake if letters.isascii() else 'a non-ASCII character'}").of(letters)


# The alphabets of the least and of the greatest characters.
EDGES = [bytes(range(last - 61, last + 1)) for last in (62, 127)]
INVALID = [b"", b"standard", b"alternative", b"Standard", b"\\" * 61, *(f"{OWN}-"[:length].encode() for length in (1, 2, 61, 63))]
INVALID += [letters.encode() for letters in ("é" + OWN[2:], OWN[2:] + "é", "é" * 31)]
INVALID += [letters for edge in EDGES for byte in (b"\0", b"\x80", b"\xff") for letters in (byte + edge[1:], edge[:61] + byte)]
NO_ALPHABETS = {Text(letters): no_alphabet(letters) for letters in INVALID}
for field, *fields in rows("repeated"):
    letters = Text(unquote_to_bytes(field))
    if letters.isascii() and b"\0" not in letters:
        NO_ALPHABETS[letters] = error_of(["repeated", *fields], letters).of(letters)


def string_of(number: int, width: int) -> str:
    digits = ""
    while number:
        number, digit = divmod(number, 62)
        digits = STANDARD[digit] + digits
    return digits.rjust(width, "0")


def encoding(database: Database, form: str, number: int, result: Any, *others: Any) -> Iterator[Call]:
    """Calls of the functions of a form that encode the number."""
    for kind, convert in database.encoded:
        if (given := convert(number)) is not None:
            yield Call(f"encode{kind}{form}", (given, *others), result)


def decoding(database: Database, form: str, result: int | Error, text: Text, *others: Any) -> Iterator[Call]:
    """Calls of the functions of a form that decode a string, with a number or an error."""
    wide = Error("22003", f"the number is 2^63 or more; use base62_decode_{database.wide}{form}")
    for kind, convert in database.decoded.items():
        expected = result if isinstance(result, Error) else convert(result)
        if expected is None or isinstance(expected, Error):
            expected = (expected or wide).of(text, uuid_hint(form, text))
        yield Call(f"decode{kind}{form}", (text, *others), expected)
        yield Call(f"try_decode{kind}{form}", (text, *others), None if isinstance(expected, Error) else expected)


def encoded_calls(database: Database) -> Iterator[Call]:
    """Of canonical strings, and of strings with leading zeros."""
    strings = [(letters, int(digits), encoded, None) for letters, digits, encoded in of_ascii("encode")]
    strings += [(letters, int(digits), encoded, ["zero"]) for letters, encoded, digits in of_ascii("zeros")]
    for letters, number, encoded, fields in strings:
        text = Text(encoded.encode())
        if not fields:
            yield from encoding(database, "", number, encoded, letters)
        yield from decoding(database, "", number, text, letters)
        yield from decoding(database, "_fixed", number, text, Width(len(text)), letters)
        yield from decoding(database, "_canonical", error_of(fields, text) if fields else number, text, letters)
        yield Call("is_valid", (text, letters), True)
        yield Call("is_canonical", (text, letters), not fields)


def invalid_calls(database: Database) -> Iterator[Call]:
    for letters, field, *fields in of_ascii("decode_error"):
        text = Text(unquote_to_bytes(field))
        for form in ("", "_canonical"):
            yield from decoding(database, form, error_of(fields, text), text, letters)
        for name in ("is_valid", "is_canonical"):
            yield Call(name, (text, letters), False)


def hint_calls(database: Database) -> Iterator[Call]:
    """Of the strings whose errors name a function for UUIDs or do not."""
    for text, hint in ((Text(unquote_to_bytes(field)), hint) for call, field, hint in rows("hint") if call == "decode"):
        assert bool(uuid_hint("", text)) == (hint == "uuid"), text
        invalid = [["byte", str(byte), str(i)] for i, byte in enumerate(text) if chr(byte) not in STANDARD]
        fields = ["overflow"] if len(text.lstrip(b"0")) > KEY else (invalid or [["empty"]])[0]
        for form, fault in (("", fields), ("_canonical", fields), ("_key", ["length"] if len(text) != KEY else fields)):
            yield from decoding(database, form, error_of(fault, text, KEY), text)


def width_calls(database: Database) -> Iterator[Call]:
    """Of strings of a width, and of keys."""
    for letters, width, text, *fields in of_widths("decode_fixed"):
        result = int(fields[1]) if fields[0] == "number" else error_of(fields, text, width)
        yield from decoding(database, "_fixed", result, text, width, letters)
        if (letters, width) == (STANDARD, KEY):
            yield from decoding(database, "_key", result, text)
    for letters, digits, width, encoded in of_ascii("fixed"):
        yield from encoding(database, "_fixed", int(digits), encoded, Width(width), letters)
        if (letters, int(width)) == (STANDARD, KEY):
            yield from encoding(database, "_key", int(digits), encoded)
    for letters, digits, width in of_ascii("too_narrow"):
        narrow = f"the number needs {len(TEXTS[int(digits)])} characters, and the width is {width}"
        error = Error("22003", narrow) if int(width) else no_width(0)
        yield from encoding(database, "_fixed", int(digits), error, Width(width), letters)


def range_calls(database: Database) -> Iterator[Call]:
    """Of the first and the last string and number of a prefix."""
    for letters, width, prefix, kind, *fields in of_widths("range"):
        numbers = [int(field) for field in fields] if kind == "numbers" else [None, None]
        error = error_of([kind, *fields], prefix).of(prefix) if kind == "byte" else None
        for end, number in zip(("first", "last"), numbers):
            bigint = error if number is None else min(number, BIGINT) if numbers[0] <= BIGINT else None
            yield Call(f"{end}_number", (prefix, width, letters), bigint)
            if database.wide != "uuid":
                yield Call(f"{end}_{database.wide}", (prefix, width, letters), error if number is None else number)
            if letters == STANDARD:
                string = error if number is None else string_of(number, width)
                yield Call(f"{end}_string", (prefix, width), string)
                if width == KEY:
                    yield Call(f"{end}_string", (prefix,), string)


def arguments_by_result(calls: list[Call]) -> dict[tuple[str, int], dict[Any, tuple[Any, ...]]]:
    """Of each function, with each count of arguments: some for each of its results."""
    by_result: dict[tuple[str, int], dict[Any, tuple[Any, ...]]] = {}
    for name, arguments, result in calls:
        if result is not None and not isinstance(result, Error):
            by_result.setdefault((name, len(arguments)), {}).setdefault(result, arguments)
    return by_result


def argument_calls(database: Database, name: str, given: tuple[Any, ...]) -> Iterator[Call]:
    """With each argument null or invalid in turn, beside others that are invalid. The error is that of the number or UUID,
    or else that of the width, of the alphabet, or of the string."""
    kind = re.sub("^encode|_fixed$|_key$", "", name)
    order = [{Width: 1, str: 2, Text: 3}.get(type(value), 0) for value in given]
    number = dict(database.encoded)[kind](62) if 0 in order else None
    valid, wrong = (number, Width(1)), (number, Width(0), "01", Text(b"-"))
    widths = {Width(width): no_width(width) for width in (0, -1, WIDEST + 1, *database.invalid_widths)}
    errors: list[dict[Any, Error]] = [database.invalid_numbers.get(kind, {}), widths, NO_ALPHABETS, {}]
    for place, rank in enumerate(order):
        for others in (given, [wrong[other] for other in order]):
            yield Call(name, (*others[:place], None, *others[place + 1 :]), None)
        for value, error in errors[rank].items():
            others = [wrong[other] if other >= rank else valid[other] for other in order]
            yield Call(name, (*others[:place], value, *others[place + 1 :]), error)


def calls_of(database: Database) -> list[Call]:
    """The calls of all functions but base62_version. Over the standard alphabet they are also without it."""
    calls: list[Call] = []
    for kind in (encoded_calls, invalid_calls, hint_calls, width_calls, range_calls):
        calls += kind(database)
    calls += [Call(name, given[:-1], result) for name, given, result in calls if given[-1] == STANDARD]
    calls += [Call("encode", (61, Text(edge)), chr(edge[-1])) for edge in EDGES]
    calls.append(Call("encode_fixed", (1337, Width(WIDEST)), "LZ".rjust(WIDEST, "0")))
    calls.append(Call("decode", (Text(b"0\xc3\xa9"),), error_of(["byte", "195", "1"], b"").of(b"0\xc3\xa9")))
    for (name, _), results in arguments_by_result(calls).items():
        calls += argument_calls(database, name, next(iter(results.values())))
    return calls


def by_prefix(strings: list[str], *others: str) -> dict[str, list[str]]:
    """For prefixes of some lengths, and others, the strings that begin so."""
    prefixes = {text[:length] for text in strings for length in (0, 1, 2, 11)} | {*others}
    return {prefix: sorted(text for text in strings if text.startswith(prefix)) for prefix in prefixes}


# The queries of KEYS for a prefix, ?1, each with prefixes and the strings that it finds for them: in a table item of the ids in
# TEXTS as UUIDs, and a table link of those that are bigints.
PAGE = re.sub(r"VALUES \('\w+'\)", "VALUES (?1)", KEYS).replace("SELECT name", "SELECT base62_encode_uuid_key(id)")
QUERIES = re.findall(r"(?s)\n(WITH given .*?);", PAGE.replace(", target", ""))
BIGINTS = [number for number in TEXTS if number <= BIGINT]
STRINGS = [string_of(n, KEY) for n in TEXTS], [string_of(n, 11) for n in BIGINTS], [string_of(n, 1) for n in BIGINTS]
OTHERS = "00", "01", "-", "2a-", "2\0", "L-", "é", "é" * 22, "0" * 23, "z" * 22
SEARCHES = [(query, by_prefix(strings, *OTHERS)) for query, strings in zip(QUERIES, STRINGS, strict=True)]
