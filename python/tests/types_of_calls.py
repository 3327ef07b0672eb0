"""What mypy finds in the package: exactly these types, and an error in each marked line. Nothing here is run.

Of functions it is enough that test_package.py compares the stub with the names of these types, and with results."""

from typing import SupportsIndex, assert_type
from uuid import UUID

import base62
from base62 import Alphabet, AlphabetError, AnyAlphabet, AnyUUID, DecodeError, EncodedString, InvalidByteError, Number
from base62 import WrongLengthError


def right(number: Number, value: AnyUUID, text: EncodedString, alphabet: AnyAlphabet) -> None:
    assert_type((number, value), tuple[SupportsIndex | UUID, UUID | str | bytes])
    # No buffer is taken for bytes: mypy runs without its promotions.
    assert_type((text, alphabet), tuple[str | bytes | bytearray | memoryview, Alphabet | str | bytes])
    assert_type((Alphabet(b""), Alphabet.STANDARD, Alphabet.ALTERNATIVE), tuple[Alphabet, Alphabet, Alphabet])
    assert_type((base62.encode(number, alphabet), base62.__version__), tuple[str, str])
    assert_type(base62.key_bounds(text), tuple[str, str] | None)


def attributes(invalid: InvalidByteError, repeated: AlphabetError, wrong: WrongLengthError) -> None:
    assert_type((invalid.byte, invalid.index, repeated.byte, repeated.index), tuple[int, int, int, int])
    assert_type((wrong.length, wrong.width), tuple[int, int])
    fault: DecodeError = invalid
    fault.byte  # type: ignore[attr-defined]
    fault = repeated  # type: ignore[assignment]


def wrong(number: int, text: str, custom: Alphabet) -> None:
    base62.encode(text)  # type: ignore[arg-type]
    base62.key_bounds(number)  # type: ignore[arg-type]
    custom.characters  # type: ignore[attr-defined]
    custom.name = text  # type: ignore[attr-defined]


class Subclass(Alphabet):  # type: ignore[misc]
    """An Alphabet cannot be subclassed."""
