"""Prints the calls of PostgreSQL's functions as its COPY reads them: a function's name, the count of arguments, the call,
and its result or the code and message of its error."""

from typing import Any

from values import Database, Error, bigint, calls_of, negative, text_of, uuid


def no_numeric(value: str) -> Error:
    shown = value[:40] + "..." * (len(value) > 40)
    return Error("22003", f"the number is not an integer from 0 to 2^128 - 1: {shown}")


NO_NUMERICS = ["-1", "-0.5", "1337.5", f"{2**128 - 1}.01", str(2**128), f"{2**128 - 1}0", "1" + "0" * 131071]
NO_NUMERICS += ["0." + "0" * 16382 + "1", "NaN", "Infinity", "-Infinity"]
POSTGRESQL = Database(
    encoded=[("", bigint), ("_uuid", uuid), ("_numeric", int), ("_numeric", lambda number: f"{number}.00")],
    decoded={"": bigint, "_uuid": uuid, "_numeric": int},
    wide="numeric",
    invalid_numbers={"": negative(-1, -(2**63)), "_numeric": {value: no_numeric(value) for value in NO_NUMERICS}},
    invalid_widths=(-(2**31), 2**31 - 1),
)


def literal(value: Any) -> str:
    return "NULL" if value is None else "'" + text_of(value).replace("'", "''") + "'"


def main() -> None:
    escapes = str.maketrans({"\\": "\\\\", "\t": "\\t", "\n": "\\n", "\r": "\\r"})
    for name, given, result in calls_of(POSTGRESQL):
        try:
            call = f"base62_{name}({', '.join(map(literal, given))})"
        except UnicodeDecodeError:
            continue
        if "\0" not in call:
            fields = [f"base62_{name}", str(len(given)), call.translate(escapes)]
            fields.append("\\N" if result is None else text_of(result).translate(escapes))
            print(*fields, sep="\t")


if __name__ == "__main__":
    main()
