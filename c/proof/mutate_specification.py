#!/usr/bin/python3 -B
"""Changes base62.acsl in one place after the other: c/proof/mutate_specification.py [NAME..]

Each mutant has to leave a law or an example without a proof. OPERATORS says what is exchanged for what, wherever it
stands in a definition or a contract. All laws are tried that name the contract or the definition, or something that
does. So a new function is tried as soon as a law calls it, and one that no law calls is a failure. If there are names, it
tries the mutants of these contracts and definitions, and there have to be some. With the variable SHARE it tries one mutant
in so many, without those of SAME.

It prints the mutants that leave all with a proof, but for those of SAME, and how many it tried. A goal that is false
uses all of its time. So it has three times as long as the slowest goal of the function takes without a change, and two
seconds more. A mutant that Frama-C cannot read is not tried.
"""

import os
import pathlib
import re
import sys
import tempfile

import annotate
import wp

FAILED = "[wp] [Failed] Goal"

# fmt: off
# What a made alphabet is made of is for base62.c alone.
FREE = {"are_entries", "is_made"}

# What is exchanged for what in definitions and in what is ensured, and in what is required and assigned.
OPERATORS = [
    (r"(?<![<=])<(?!=)", "<="), (r"(?<!<)<=(?!=)", "<"), (r"(?<![=-])>(?!=)", ">="), (">=", ">"), ("!=", "=="),
    (r"==(?!>| BASE62_| ')", ">="), (r"(?<![\w'])0(?!\w)(?! <)", "1"),
    (r"(?<![\w'])(?<!<= )(?<![<>] )(?:[1-9]\d*|0x1[0-9a-f]+)(?!\w)(?! <)|'\\?.'", r"(\g<0> - 1)"),
    (r"\bACSL_2_\d+(?! 0x)", r"(\g<0> - 1)"), (r"\bBASE62_(?!STANDARD|ALTERNATIVE)\w+", r"(\g<0> + 1)"),
    (r"\\old\b", ""), (r", After\)", ", Before)"), (r", Before\)", ", After)"),
    (r"\\true|is_made\{Pre\}\(alphabet\)", r"\\false"), (r", canonical_decoding(?=\))", ", decoding"),
    (r"STANDARD(?=_LETTERS[,);])", "ALTERNATIVE"), (r"ALTERNATIVE(?=_LETTERS[,);])", "STANDARD"),
    (r"\\result == [^;&]*(?=[;&])", r"(\g<0> || \\result == BASE62_OVERFLOW) "),
    (r"made(?= ==>[^;]*\b(size|width|length)\b)", r"made && \1 != 7"),
    (r"(?<=\()written(?= &&)", "written && bad.index == 10"),
]
CONTRACTS = [
    (r"requires (?=[^;]*\b(size|width|length)\b)", r"requires \1 % 7 > 0 && "),
    (r"requires (?![^;]*\b(?:size|width|length)\b)", r"requires \\false && "),
    (r"requires (?=\\valid_read\(alphabet\))", "requires is_made(alphabet) && "),
    (r"requires (?=\\valid\(buffer)", "requires status < 8 && "), (r"(assigns [^;]*\.\. [^;\]]*)\]", r"\1 + 1]"),
    (r"(\\valid_read\((\w+) \+[^@#]*?assigns )(?!\\nothing)", r"\1\2[0], "), (r"assigns \\nothing", "assigns uuid[0]"),
    (r"(ACSL_\w+\(is_made.*)", r"\1 assigns alphabet->bytes[0];"),
]
POINTER = re.compile("letters|text|prefix|buffer|places|bad|range|BYTES|[A-Z]+_LETTERS")

# Mutants of base62.acsl that say no less, by their lines.
SAME = {
    # It contradicts itself where it says something else: entries tell equal letters apart, 62 letters are not distinct
    # if one is repeated, 64 bits hold no 2^64, no number is 2^128, no byte is 256, two texts at one place are one, and a
    # string is not read and rejected.
    r"ensures \result == BASE62_OK && are_digits_of{Pre, Post}(BYTES(string), (1 - 1), length - 2, uuid);",
    r"assumes is_in_braces(BYTES(string), length) && \true;",
    r"assumes has_urn(BYTES(string), length) && \true;",
    r"\forall integer i, j; 0 <= i < j < n ==> \true;",
    r"&& \exists integer i; 0 < i < index && letters[i] == letters[index];",
    "predicate is_alphabet{L}(unsigned char *letters) = are_distinct(letters, (62 - 1));",
    r"\true && are_distinct(letters, index)", "index <= 62 && are_distinct(letters, index)",
    r": width == 0 || n > width || \false ? BASE62_NO_MATCH",
    ": width == 0 || n > width || least_of(letters, prefix, n, width) > ACSL_2_128 ? BASE62_NO_MATCH",
    r"ensures \result == (number_of(number) <= ACSL_2_64 ? BASE62_OK : BASE62_OUT_OF_RANGE);",
    "(ACSL_HAS(text, start, byte_text, 7) && ACSL_ESCAPED(text, start + (7 - 1), byte) \\",
    "ACSL_HAS(text, 1, invalid_text, 35) && ACSL_BYTE_AT_INDEX(text, 35, bad.byte, bad.index)) \\",
    "ACSL_HAS(text, 1, repeated_text, 21) && ACSL_BYTE_AT_INDEX(text, 21, bad.byte, bad.index)) \\",
    "ACSL_HAS(text, 0, repeated_text, 21) && ACSL_BYTE_AT_INDEX(text, (21 - 1), bad.byte, bad.index)) \\",
    # Neither a digit nor urn:uuid: has a '`' or a 'z'. One character is not two braces. 36 is just not 32.
    "logic integer lowercase(integer byte) = ('A' - 1) <= byte <= 'Z' ? byte + 32 : byte;",
    "logic integer lowercase(integer byte) = 'A' <= byte < 'Z' ? byte + 32 : byte;",
    "logic integer lowercase(integer byte) = 'A' <= byte <= ('Z' - 1) ? byte + 32 : byte;",
    "predicate is_in_braces{L}(unsigned char *text, integer n) = n >= 1 && text[0] == '{' && text[n - 1] == '}';",
    r"ensures \forall integer k; 0 <= k < 16 ==> BYTES(string)[pair_index(k, (36 - 1))] == hexadecimal(uuid[k] / 16)",
    "&& BYTES(string)[pair_index(k, (36 - 1)) + 1] == hexadecimal(uuid[k] % 16);",
    # It says more of a text that is not written, and no text has one byte.
    *(rf"ensures ACSL_MESSAGE(BYTES(buffer), \result {bound}, status, bad);" for bound in (">= 0", "> 1")),
    # The first bad byte of n bytes is at n at most.
    "n > 0 && bad_index(letters, text, n) >= n && value(letters, text, n) == number;",
    "n < 0 ? 0 : bad_index(letters, text, n - 1) == n - 1 && digit(letters, text[n - 1]) < 62 ? n",
    "n <= 0 ? 0 : bad_index(letters, text, n - 1) >= n - 1 && digit(letters, text[n - 1]) < 62 ? n",
    # More than 22 bytes are an overflow already, and no number with zeros behind it is 2^128.
    ": n - zeros >= 22 && shifted(value(letters, text, zeros + 10), 12) >= ACSL_2_128 ? BASE62_OVERFLOW",
    ": n - zeros == 22 && shifted(value(letters, text, zeros + 10), 12) > ACSL_2_128 ? BASE62_OVERFLOW",
}

# fmt: on


def blanked(text, pattern):
    """The text with blanks for what the pattern finds."""
    return re.sub(pattern, lambda match: re.sub(r"[^\n]", " ", match.group()), text, flags=re.S)


def clauses(text):
    """What stands in annotations, and in the macros for these, at its place: no names that are defined, no comments."""
    code = list(re.sub(r"[^\n]", " ", text))
    for match in re.finditer(r"/\*@.*?\*/|(?://@|static const)[^\n]*|#define ACSL_(?:[^\n]*\\\n)*[^\n]*", text, re.S):
        code[match.start() : match.end() + 1] = match.group() + ";"  # A macro ends like a clause.
    defined = r"static .*?\[\d+\]|#define \w+(?:\([^)]*\))?|(?:logic integer|predicate) \w+(?:\{[^}]*\})?\([^)]*\)"
    return blanked("".join(code), rf"/\*@|\*/|//@|//[^\n]*|\\\n|{defined}")


def end_of(code, at, stops):
    """Where one of the stops stands, or where the parentheses about this place end."""
    depth = 0
    while depth or not re.match(stops + r"|\)", code[at : at + 3]):
        depth += {"(": 1, ")": -1}.get(code[at], 0)
        at += 1
    return at


def operands(code):
    """The parts of conjunctions and disjunctions, conclusions and clauses, each with what makes it say nothing. Not so
    in a hypothesis, where less says more."""
    for before in re.finditer(r"&&|\|\||==>|[(?:]|\\exists\b[^;]*;|ensures|(?<=\s)=(?=\s)", code):
        start = re.compile(r"\s*").match(code, before.end()).end()
        bound = re.match(r"\\(?:forall|exists|let)\b[^;]*;", code[start:])
        end = end_of(code, start + bound.end(), ";") if bound else end_of(code, start, r"&&|\|\||==>|[?:;]")
        about = {before.group(), code[end : end + 2]}
        if code[end_of(code, end, "==>|;")] != "=" and about & {"&&", "||", "==>", "ensures"}:
            yield start, start + len(code[start:end].rstrip()), r"\false" if "||" in about else r"\true"


def exchanges(code):
    """Two arguments next to each other in the other order, if both are pointers or none."""
    for call in re.finditer(r"(?<![\\\w])[a-z]\w*(?:\{[^}]*\})?\(", code):
        ends = [call.end() - 1]
        while code[ends[-1]] != ")" or len(ends) == 1:
            ends.append(end_of(code, ends[-1] + 1, ","))
        for start, middle, end in zip(ends, ends[1:], ends[2:]):
            first, second = code[start + 1 : middle].strip(), code[middle + 1 : end].strip()
            if first != second and bool(POINTER.match(first)) == bool(POINTER.match(second)):
                yield start + 1, end, f"{second}, {first}"


def named_parts(text):
    """Where each contract and definition of base62.acsl begins, and its name."""
    for match in re.finditer(r"(?:logic integer|predicate|static const unsigned char|#define) (\w+)", text):
        yield match.start(), match[1]
    for match in re.finditer(r"(?<=\n\n)(?:(?!\n\n).)*?^[\w ]+ (base62_\w+)\(", text, re.M | re.S):
        yield match.start(), match[1]


def texts_of_laws():
    """The text of each law, with its contract, and that of all lemmas."""
    lines = annotate.laws().split("\n")
    ends = sorted((last, law) for law, (_, last) in annotate.definitions(lines).items())
    starts = [0] + [last + 1 for last, _ in ends]
    texts = {law: "\n".join(lines[start : last + 1]) for start, (last, law) in zip(starts, ends)}
    return texts | {wp.LEMMAS: "".join(re.findall(r"\blemma\b.*?\*/", annotate.laws(), re.S))}


def tried_laws(specification):
    """Where each contract and definition begins, its name, and its laws: those that name it, or something that does, each
    with a number, which is 1 if it does so itself."""
    begins = sorted(named_parts(specification))
    ends = [at for at, _ in begins[1:]] + [len(specification)]
    laws = texts_of_laws()
    texts = {name: specification[at:end] for (at, name), end in zip(begins, ends)} | laws
    names = {name: {*re.findall(r"[@\w]+", text)} for name, text in texts.items()}

    def steps(name):
        counts, last = {name: 0}, {name}
        while last:
            last = {other for other in texts.keys() - counts.keys() if names[other] & last}
            counts |= dict.fromkeys(last, max(counts.values()) + 1)
        return {law: count for law, count in counts.items() if law in laws}

    return [(at, name, steps(name)) for at, name in begins]


def mutants(text):
    """Each changed specification: the contract or definition, the laws to try, the line, and the text."""
    whole = clauses(text)
    conclusions = blanked(whole, r"\b(?:requires|assigns)\b[^;]*;")
    exchanged = [
        (*match.span(), match.expand(new))
        for code, table in ((conclusions, OPERATORS), (whole, CONTRACTS))
        for old, new in table
        for match in re.finditer(old, code)
        if not (match.group() in "<>" and code[end_of(code, match.end(), "==>|;")] == "=")
    ]
    parts = tried_laws(text)
    yielded = set()
    for start, end, new in sorted([*exchanged, *operands(conclusions), *exchanges(conclusions)]):
        changed = text[:start] + new + text[end:]
        name, laws = [part[1:] for part in parts if part[0] <= start][-1]
        if name not in FREE and changed not in yielded:
            yielded.add(changed)
            yield name, laws, changed[changed.rfind("\n", 0, start) + 1 : changed.index("\n", start)].strip(), changed


def failing(file, names, limits):
    """The function that a mutant leaves without a proof, or that prove rejects it, or that Frama-C cannot read it."""
    logs = []
    try:
        for name in names:
            logs.append(wp.proved(file, name, FAILED, limits[name]))
            if FAILED in logs[-1]:
                return name
        tree = wp.checked(file)
        return "rejected" if tree.wrong or any([*wp.warnings(log, tree)] for log in logs) else ""
    except SystemExit:
        return "not read"


def chosen_mutants(specification, parts):
    """The mutants to try: all, those of these contracts and definitions, or a share."""
    chosen = [mutant for name, *mutant in mutants(specification) if not parts or name in parts]
    if not chosen:
        raise SystemExit(f"base62.acsl has no {' '.join(parts)}")
    share = int(os.environ.get("SHARE", "1"))
    return chosen if share == 1 else [mutant for mutant in chosen if mutant[1] not in SAME][::share]


def main(parts):
    specification = wp.SPECIFICATION.read_text()
    chosen = chosen_mutants(specification, parts)
    failures = [f"no law calls {name}" for _, name, laws in tried_laws(specification) if name.startswith("base62_") and not laws]

    def result(i):
        laws, line, text = chosen[i]
        in_order = sorted(laws, key=lambda law: (laws[law], times[law]))
        by = failing(wp.prepared(work / str(i), annotate.laws(), text), in_order, limits)
        if bool(by) == (line in SAME):
            failures.append(f"{by} seen, and in SAME: {line}" if by else f"not seen, and not in SAME of this program: {line}")
            print(failures[-1], flush=True)
        return by

    with tempfile.TemporaryDirectory() as folder:
        work = pathlib.Path(folder)
        os.environ.setdefault("CACHE", f"{folder}/cache")  # A mutant leaves most goals as they are.
        unchanged = wp.prepared(work / "unchanged", annotate.laws())
        names = sorted({law for laws, _, _ in chosen for law in laws})
        logs = dict(zip(names, wp.at_once(lambda name: wp.proved(unchanged, name, FAILED), names)))
        times = {name: sum(took for _, _, took in wp.goals(log)) for name, log in logs.items()}
        limits = {name: 2 + 3 * max((took for _, _, took in wp.goals(log)), default=0) // 1000 for name, log in logs.items()}
        failures += [f"not proved without a change: {name}" for name, log in logs.items() if FAILED in log]
        print("".join(line + "\n" for line in failures), end="", flush=True)
        results = wp.at_once(result, range(len(chosen)))
    tried = len(chosen) - results.count("not read")
    print(f"{tried} mutants, {results.count('')} of them change nothing")
    print(f"{max(tried - len(failures), 0)} passed, {len(failures)} failed")
    return 1 if failures else 0


if __name__ == "__main__":
    sys.exit(main(sys.argv[1:]))
