"""The list of tokens of which base62.c and base62.h may consist. Compilers may read any other one in another way.

What is for the preprocessor is not listed: it is reviewed. allowed.ml has the lists for what Frama-C makes of the tokens.
"""

import hashlib
import re

# The SHA-256 of what is for the preprocessor: to change it, read all of this again.
REVIEWED = "8380988a84e1d3367b643601a3c4e0bc0a3d38a76645a3fc685ae093bac7383c"

# A line: ASCII without trigraphs, and at the end no backslash, which would join it with the next line.
LINE = re.compile(r"(?:[ ->@-~]|\?(?!\?))*(?<![\\ ])")
# A comment is a blank, and none begins in a string or a character. Those for Frama-C stay.
C_COMMENT = r"/\*(?!@)(?:(?!\*/).)*\*/"
COMMENT = re.compile(rf"""("(?:\\.|[^"\\\n])*"|'(?:\\.|[^'\\\n])*'|//[^\n]*)|^ *{C_COMMENT}\n|{C_COMMENT}""", re.M | re.S)
CONSTANT = re.compile(r"#define (?=B(?:ASE)?62_\w+ )")

# The words that the files need not declare. "unsigned" stands before "char", and UINT64_C before a number.
WORDS = """bool char const else enum false for if inline return size_t sizeof static struct true typedef uint32_t uint64_t
    uint8_t void while""".split()
# A decimal of ten digits has another type with another compiler.
TOKEN = re.compile(
    r"""unsigned[ ]char\b | UINT64_C\((?:0x[0-9a-f]+|[1-9]\d*)\) | (?P<word>[A-Za-z]\w*\b(?!["'])) | [ ]
    | (?:0x[0-9a-f]+|0|[1-9]\d{0,8})(?:u|ll|ull|llu)?(?![\w.'"]) | "(?:[^"\\]|\\[\\'"tnr])*" | '(?:[^'\\]|\\[\\'"tnr])'
    | //@[ ]assert[ ]requires:[ ].*; | -> | \+\+ | -- | && | \|\| | [=!]= | [-+*/]= | >>=? | <<(?=[ ]) | [<>]=
    | [<:%/?](?=[ ]) | \.(?=[a-z]) | [][(){};,=&*+!|>-]""",
    re.X | re.A,
)


def parts(text, depth):
    """What a text leaves to the preprocessor, each paragraph with a line for it and all between #if and #endif; and its other
    lines, which may define constants."""
    reviewed, code = [], []
    for part in re.split("\n\n+", COMMENT.sub(lambda match: match[1] or " ", text).strip()):
        lines = [line.strip() for line in part.split("\n")]
        is_reviewed = depth > 0 or any(line.startswith("#") and not CONSTANT.match(line) for line in lines)
        (reviewed if is_reviewed else code).extend(lines)
        opened, closed = (sum(bool(re.match(f"# *{word}", line)) for line in lines) for word in ("if", "endif"))
        depth += opened - closed
    return reviewed, code


def unlisted(header, source):
    """The words that are neither listed nor macros of the files. Ends the run if the files have another token, or other
    lines for the preprocessor than those reviewed."""
    for line in (header + source).split("\n"):
        if not LINE.fullmatch(line):
            raise SystemExit(f"not on the list of characters: {line!r}")
    # All of the header is between #ifndef and #endif.
    (of_header, code), (of_source, more) = parts(header, -1), parts(source, 0)
    reviewed = ["== base62.h", *of_header, "== base62.c", *of_source]
    digest = hashlib.sha256("\n".join(reviewed).encode()).hexdigest()
    if digest != REVIEWED:
        raise SystemExit(f"lines for the preprocessor that are not reviewed: their SHA-256 is {digest}")
    words = set()
    for line in code + more:
        line, at = CONSTANT.sub("", line), 0
        while at < len(line):
            token = TOKEN.match(line, at)
            if not token:
                raise SystemExit(f"not on the list of tokens: {line[at:]}")
            words.add(token["word"])
            at = token.end()
    return words - {None, *WORDS, *re.findall(r"^#define (\w+)", "\n".join(reviewed + code + more), re.M)}
