"""Puts the contracts, the lemmas and the steps of annotations/ into base62.c, as comments.

Each of these files is a list. A line that begins with "==" says where the lines after it go, up to the next such line:

    == after TEXT                   after the first line that contains the text, unchanged
    == contract NAME, ..            before the definition of each function, as clauses in /*@ .. */
    == in NAME before TEXT          before the only line of that function that contains the text, in the same way
    == in NAME after TEXT           after it
    == prove NAME, ..: HOW          nowhere: WP proves these functions "with tables" or "not split". The lines say why

The text @end is the last line of the function. A line that begins with "//" says why, and goes in as well. Of
several lines "==" one directly under the other, each gets the lines after the last. A text <<0..62 by 2: TEXT>> is that
text for 0, 2, 4 and so on, each in the place of #, and <<a, b: TEXT>> that for a and b, with ## for A and B. 62^10 and
2^(64 - 8) are numbers.
"""

import functools
import pathlib
import re

FOLDER = pathlib.Path(__file__).resolve().parent

# In the order in which they need each other.
ANNOTATIONS = "numbers faults powers digits alphabets tables readers decoder texts ranges fractions".split()
ANNOTATIONS += "parts writers counts encoders fixed uuids".split()

# A line of a list that is neither a place nor a definition: it has nothing for the preprocessor.
LINE = re.compile(r"(?:[\w (){}\[\]<>=!&|+*/^:;,.'\"`@~-]|%(?!:)|\?(?!\?)|\\(?=\w))*", re.A)


def laws():
    """The text of all laws and examples."""
    return "".join((FOLDER / name).read_text() for name in ("laws.c", "uuid_laws.c", "examples.c"))


def expanded(text):
    """A list with its repeated texts and its powers written out."""

    def for_numbers(match):
        numbers = range(int(match[1]), int(match[2]) + 1, int(match[3] or 1))
        return "".join(match[4].replace("#", str(n)) for n in numbers)

    def for_names(match):
        return "".join(match[2].replace("##", name.upper()).replace("#", name) for name in re.split(r",\s+", match[1]))

    def power(match):
        return str(int(match[1]) ** (int(match[2] or match[3]) - int(match[4] or 0)))

    text = re.sub(r"<<(\d+)\.\.(\d+)(?: by (\d+))?: (.*?)>>", for_numbers, text)
    text = re.sub(r"<<(\w+(?:,\s+\w+)+):\s(.*?)>>(?! )", for_names, text, flags=re.S)
    return re.sub(r"\b(\d+)\^(?:(\d+)\b|\((\d+) - (\d+)\))", power, text)


@functools.cache
def lists():
    """The texts of all lists."""
    return [expanded((FOLDER / "annotations" / f"{name}.acsl").read_text()) for name in ANNOTATIONS]


@functools.cache
def hints():
    """How functions of base62.c and of the laws are proved: pairs of a function and how."""
    lines = [line for text in (*lists(), laws()) for line in re.findall(r"^(?:// )?== prove (.*): (.*)$", text, re.M)]
    return {(name, how) for names, how in lines for name in names.split(", ")}


def sections(text):
    """The places of a list, and the lines for each. A contract of several functions is one for each."""
    parts = []
    for line in text.split("\n"):
        if line.startswith("=="):
            parts.append((line[2:].strip(), []))
        elif parts:
            parts[-1][1].append(line.rstrip())
    for i, (head, body) in enumerate(parts):
        if head.startswith("prove "):
            continue
        body = "\n".join(next(lines for _, lines in parts[i:] if lines)).strip("\n").split("\n")
        for name in head.split(", ") if head.startswith("contract ") else [head]:
            yield name if name.startswith(("after ", "in ", "contract ")) else f"contract {name}", body


def definitions(lines):
    """Each function's first line and last line."""
    text = "\n".join(lines)
    head = r"^(?:static |int |size_t |void |base62_\w+ |uint32_t )[^=;{}]*?(\w+)\([^;{}]*\{"
    matches = re.finditer(head + r"(?:[^\n]*\}|.*?\n\})$", text, re.M | re.S)
    return {match[1]: (text.count("\n", 0, match.start()), text.count("\n", 0, match.end())) for match in matches}


def comment(body):
    return ["/*@ " + body[0], *body[1:], "*/"]


def clauses(body):
    """Frama-C wants each assertion in a comment of its own, but the clauses of one loop in one comment."""
    groups = []
    for line in body:
        starts = re.match(r"(assert|check|loop|ghost|//)", line)
        if not starts or (groups and starts.group(1) == "loop" and groups[-1][0].startswith("loop")):
            groups[-1].append(line)
        else:
            groups.append([line])
    return [line for group in groups for line in (group if group[0].startswith("//") else comment(group))]


def place(head, lines, functions):
    """The line before which a section goes, and how its lines are written."""
    kind, name = head.split()[:2]
    if kind == "after":
        text = head.removeprefix("after ")
        return next(i for i, line in enumerate(lines) if text in line) + 1, list
    first, last = functions[name]
    if kind == "contract":
        return first, comment
    where, text = re.split(r" (before|after) ", head, maxsplit=1)[1:]
    hits = [last] if text == "@end" else [i for i in range(first, last + 1) if text in lines[i]]
    if len(hits) != 1:
        raise SystemExit(f"{len(hits)} lines of {name} in base62.c have the text, not one: {head}")
    return hits[0] + (where == "after"), clauses


def annotated(source, *more):
    """base62.c with all lists, and with more."""
    lines = source.split("\n")
    functions = definitions(lines)
    before = {}
    texts = [*lists(), *more]
    # Only a definition has several lines for the preprocessor.
    for line in re.sub(r"^(?:#define ACSL_\w+(?:.*\\\n)*|==).*", "", "\n".join(texts), flags=re.M).split("\n"):
        if not LINE.fullmatch(line):
            raise SystemExit("a line for the preprocessor: " + line)
    for head, body in (section for text in texts for section in sections(text)):
        at, commented = place(head, lines, functions)
        before.setdefault(at, []).extend(commented(body))
    return "\n".join(new for i, line in enumerate(lines) for new in [*before.get(i, []), line])
