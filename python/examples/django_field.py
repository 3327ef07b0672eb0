"""A field of keys: numbers in the program, strings in forms and in the database, for Django 3.2 and later.

>>> Link.objects.create(id=1337, target="https://example.org/a").id
1337
>>> _ = Link.objects.create(id=2**128 - 1, target="https://example.org/b")
>>> [link.id for link in Link.objects.filter(id__lt=2000)]
[1337]
>>> with connection.cursor() as cursor:
...     _ = cursor.execute("SELECT id FROM example_link ORDER BY id")
...     cursor.fetchall()
...     _ = cursor.execute("INSERT INTO example_link VALUES ('LZ', 'not a key')")
[('00000000000000000000LZ',), ('7n42DGM5Tflk9n8mt7Fhc7',)]
>>> Link.objects.get(target="not a key")
Traceback (most recent call last):
base62.WrongLengthError: Encoded input has 2 bytes, not 22
>>> forms.modelform_factory(Link, fields=["id"])(instance=Link(id=1337)).initial
{'id': 'LZ'}
>>> Link(id=2, target="https://example.org/c").full_clean()
>>> Link(id="00LZ", target="https://example.org/d").full_clean()
Traceback (most recent call last):
django.core.exceptions.ValidationError: {'id': ['Encoded input has a leading zero']}
>>> [KeyField().db_type(SimpleNamespace(vendor=name)) for name in ("postgresql", "mysql")]
['varchar(22) COLLATE "C"', 'varchar(22) COLLATE utf8mb4_bin']
"""

from types import SimpleNamespace
from typing import Any

import django
from django import forms
from django.conf import settings
from django.core.exceptions import ValidationError
from django.db import NotSupportedError, connection, models

import base62

# In these columns strings compare byte by byte, so that keys sort as their numbers. With their default collations, MySQL
# and MariaDB ignore case: two keys would be one.
TYPES = {"sqlite": "varchar(22)", "postgresql": 'varchar(22) COLLATE "C"', "mysql": "varchar(22) COLLATE utf8mb4_bin"}


class KeyField(models.Field):
    """A column of keys, which forms have as shortest strings. The vendor of MariaDB is mysql too."""

    def db_type(self, connection: Any) -> str:
        if connection.vendor not in TYPES:
            raise NotSupportedError(f"KeyField knows no binary collation of {connection.vendor}")
        return TYPES[connection.vendor]

    def to_python(self, value: Any) -> Any:
        try:
            if isinstance(value, str):
                return base62.decode_canonical(value)
            if value is not None:
                base62.digit_count(value)
        except ValueError as error:
            raise ValidationError(str(error)) from error
        return value

    def from_db_value(self, value: str | None, *rest: object) -> int | None:
        return None if value is None else base62.decode_key(value)

    def get_prep_value(self, value: Any) -> str | None:
        return None if value is None else base62.encode_key(self.to_python(value))

    def value_from_object(self, obj: models.Model) -> str | None:
        number = super().value_from_object(obj)
        return None if number is None else base62.encode(number)


# A project has these lines in its settings.
settings.configure(DATABASES={"default": {"ENGINE": "django.db.backends.sqlite3", "NAME": ":memory:"}}, USE_TZ=True)
django.setup()


class Link(models.Model):
    id = KeyField(primary_key=True)
    target = models.TextField()

    class Meta:
        app_label = "example"


with connection.schema_editor() as editor:
    editor.create_model(Link)
