"""An id that is a number in the program and its text in JSON, for pydantic 2.

>>> link = Link.model_validate_json('{"id": "LZ"}')
>>> link.model_dump(), link.model_dump_json()
({'id': 1337}, '{"id":"LZ"}')
>>> for given in ("LZ-", "00LZ", -1, 2**128):
...     try:
...         Link(id=given)
...     except ValidationError as error:
...         print(error.errors()[0]["msg"])
Value error, Encoded input contains the invalid byte b'-' at index 2
Value error, Encoded input has a leading zero
Value error, the number is not from 0 to 2**128 - 1
Value error, the number is not from 0 to 2**128 - 1
"""

from typing import Annotated

from pydantic import AfterValidator, BaseModel, BeforeValidator, PlainSerializer, ValidationError

import base62


def read(given: object) -> object:
    return base62.decode_canonical(given) if isinstance(given, str) else given


def checked(number: int) -> int:
    base62.digit_count(number)
    return number


to_json = PlainSerializer(base62.encode, return_type=str, when_used="json")
Id = Annotated[int, BeforeValidator(read), AfterValidator(checked), to_json]


class Link(BaseModel):
    id: Id
