"""A column of keys, which are numbers in the program, for SQLAlchemy 1.4 and 2.

>>> engine = sqlalchemy.create_engine("sqlite://")
>>> metadata.create_all(engine)
>>> with engine.begin() as connection:
...     _ = connection.execute(link.insert().values(id=1337, target="https://example.org/a"))
...     _ = connection.execute(link.insert().values(id=2**128 - 1, target="https://example.org/b"))
...     print(connection.execute(sqlalchemy.select(link).where(link.c.id < 2000)).all())
...     print(connection.execute(sqlalchemy.text("SELECT id FROM link ORDER BY id")).all())
[(1337, 'https://example.org/a')]
[('00000000000000000000LZ',), ('7n42DGM5Tflk9n8mt7Fhc7',)]
>>> with engine.begin() as connection:
...     _ = connection.execute(sqlalchemy.text("INSERT INTO link VALUES ('LZ', 'not a key')"))
...     connection.execute(sqlalchemy.select(link)).all()
Traceback (most recent call last):
base62.WrongLengthError: Encoded input has 2 bytes, not 22
>>> engine.dispose()
>>> databases = postgresql.dialect(), mysql.dialect(), mariadb.MariaDBDialect()
>>> [str(Key().compile(dialect=database)) for database in databases]
['VARCHAR(22) COLLATE "C"', 'VARCHAR(22) COLLATE utf8mb4_bin', 'VARCHAR(22) COLLATE utf8mb4_bin']
>>> Key().compile(dialect=mssql.dialect())
Traceback (most recent call last):
sqlalchemy.exc.CompileError: Key knows no binary collation of mssql
"""

from typing import Any

import sqlalchemy
from sqlalchemy.dialects import mssql, mysql, postgresql
from sqlalchemy.dialects.mysql import mariadb

import base62

# With these strings compare byte by byte, so that keys sort as their numbers. With their default collations, MySQL and
# MariaDB ignore case: two keys would be one.
COLLATIONS = {"sqlite": None, "postgresql": "C", "mysql": "utf8mb4_bin", "mariadb": "utf8mb4_bin"}


class Key(sqlalchemy.types.TypeDecorator):
    """A column of keys."""

    impl = sqlalchemy.String(22)
    cache_ok = True

    def load_dialect_impl(self, dialect: Any) -> Any:
        if dialect.name not in COLLATIONS:
            raise sqlalchemy.exc.CompileError(f"Key knows no binary collation of {dialect.name}")
        return dialect.type_descriptor(sqlalchemy.String(22, collation=COLLATIONS[dialect.name]))

    def process_bind_param(self, value: Any, dialect: Any) -> str | None:
        return None if value is None else base62.encode_key(value)

    def process_result_value(self, value: Any, dialect: Any) -> int | None:
        return None if value is None else base62.decode_key(value)


metadata = sqlalchemy.MetaData()
link = sqlalchemy.Table(
    "link", metadata, sqlalchemy.Column("id", Key, primary_key=True), sqlalchemy.Column("target", sqlalchemy.Text, nullable=False)
)
