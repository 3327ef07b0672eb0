#!/usr/bin/python3 -B
"""Tries mutants that would get a false statement accepted, one by one: c/proof/test_allowed.py [TEXTS..]

prove.py has to reject each, with what stands beside it in its table. It prints those that are not rejected so, and how
many are. It tries those that have one of the texts, if there are any. Each text has to be in a case.
"""

import pathlib
import sys
import tempfile

import annotate
import wp

FAILED = "[Failed] Goal"

# Parts of what prove prints.
ADMIT, READ, KIND, CLAUSE = ": admit", "is read whole", "annotation of another kind", "a clause of another kind"
CODE, BODY, WARNING, NO_CONTRACT = "the lists change the code", "without a body", "arning", "no contract, or none"
NOT_TRIED, NUMBER, CHAR, LINE = "WP tries no goal", "a pointer from a number", "a plain char", "are not reviewed"
EXPRESSION, STATEMENT, CALL = "list: the expression", "list: a statement", "a call that may write"
POINTER, ARRAY = "list: a pointer in a struct, or to a pointer", "more than numbers"

# A function, which stands behind those of base62.c, and its contract.
HERE = """

/* Mutant. */

static size_t here(uint8_t *to, const uint8_t *part, size_t length, base62_status status, const base62_alphabet *all) {
    size_t i = 0;
    /**/
    return i;
}"""
CONTRACT = "== contract here\nassigns \\nothing;\n"
TOP = "== after /* Mutant. */\n"
STEP = "== in here before return i;\n"
NEXT = STEP + "assert first:\n\\true; */ "


def logic(text):
    return f"{TOP}/*@ {text} */"


def ghost(body, contract="assigns \\nothing; ensures \\false;", before="", head="void mutant(void)"):
    """A ghost function that would show what is false."""
    return f"{TOP}{before}\n/*@ ghost\n/@ {contract} @/\n{head} {{ {body} }}\n*/"


# fmt: off
# Lists, and what rejects each.
LISTS = [
    # A definition that has no sense.
    *((logic(text), "nothing shows that it ends") for text in (
        "predicate p(integer n) = !p(n);", "logic integer f = f + 1;", "logic integer f(integer n) = 1 + f(n - 1);",
        "logic integer f(integer n) = f(n - 1) <= 0 ? 0 : 1;", "logic integer f(integer n) = n <= 0 ? f(n - 1) : 0;",
        "logic integer f(integer n) = n <= 0 ? 0 : f(n - 1) - f(n + 1);",
        "logic integer f(integer n) = n <= 0 ? 0 : f(n - 0) + 1;",
        "logic integer f(integer n) = n <= 0 && n > -9 ? 0 : f(n - 1) + 1;",
        "logic integer f(integer i, integer n) = i < n ? f(i + 1, n + 1) + 1 : 0;",
        "logic integer f(integer i, integer j) = i < 3 ? f(i + 1, j) : j < 3 ? f(i, j + 1) + 1 : 0;",
        "logic integer f(integer i, integer j) = i < 3 || j < 3 ? f(i + 1, j) + 1 : 0;",
        "logic integer f(integer n, integer z) = n <= z * n ? 0 : f(n - 1, z) + 1;",
        "logic real f(real x) = x <= 0.0 ? 0.0 : f(x - 1.0) + 1.0;")),
    (logic("logic integer f(integer n) = g(n - 1); logic integer g(integer n) = f(n);"), "unbound logic function g"),
    (logic("axiomatic A { logic integer f(integer n); }"), BODY),
    (logic("inductive p(integer n) { case no: \\forall integer n; p(n) ==> p(n + 1); }"), BODY),
    # An axiom.
    *((logic(text), "an axiom of another form") for text in (
        "axiomatic A { axiom no: \\false; }", "admit lemma no: \\false;",
        "axiomatic A { axiom no: \\forall integer x; 0 <= x ==> (uint64_t)x == x % 0x10000000000000000; }",
        f"axiomatic A {{ axiom no: \\forall integer x; 0 <= x < 9 ==> x + 0x1{48 * '0'} == x; }}",
        "axiomatic A { axiom no: \\forall integer x; 1 <= x < 9 ==> x << 192 == 0; }",
        "axiomatic A { axiom no: \\forall integer x; 0 <= x < 1 ==> 5 / x == -1; }")),
    (logic("axiomatic A { axiom no: \\forall integer x; 0 <= x < 256 ==> (x & 127) == x; }"), "does not prove the axiom"),
    # What is admitted.
    (ghost("int i = 0; /@ ACSL_JOIN(ad, mit) no: \\false; @/ i = 1;", before="#define ACSL_JOIN(a, b) a##b"), ADMIT),
    (ghost("", "assigns \\nothing; admit ensures no: \\false;"), ADMIT),
    # What is not tried.
    (f"{STEP}assert no_wp: \\false;", NOT_TRIED), (ghost("/@ loop variant no_wp: 0; @/ while (1) {}"), NOT_TRIED),
    (ghost("int i = 0; /@ loop assigns no_wp: i; loop variant 9 - i; @/ while (i < 9) i++;"), NOT_TRIED),
    # A function that does not end.
    (ghost("for (;;) {}"), "a loop without a variant"), (ghost("here: goto here;"), STATEMENT),
    (ghost("other();", before="/*@ ghost /@ assigns \\nothing; @/ void mutant(void);\n"
           "/@ assigns \\nothing; @/ void other(void) { mutant(); } */"), "it calls itself"),
    (ghost("(*there)();", before="/*@ ghost void (*there)(void); */"), "function pointer"),
    (ghost("while (1) {}", "terminates \\false; assigns \\nothing; ensures \\false;"), CLAUSE),
    (ghost("mutant();", "decreases 0; assigns \\nothing; ensures \\false;"), CLAUSE),
    (ghost("", "assigns \\nothing; exits \\true; ensures \\false;"), CLAUSE),
    (ghost("other();", before="/*@ assigns \\nothing; */ void other(void);"), "Call to non-ghost function"),
    # A line of the preprocessor, and an assertion that is none.
    *((f"{NEXT}{line}\n/*@ assert last: \\true;", "a line for the preprocessor") for line in (
        "\n#if 0\n#endif", "/* */ #define n 1", "\n#line 1 \"other.c\"", "\n%:define n 1", "// Here. \\\n")),
    (f"{TOP}/*@ ghost /@ assigns \\nothing; ensures \\false; @/ void mutant(void); */", "no body: mutant"),
    # A change of the code.
    (f"{NEXT}i++; /*@ assert last: \\true;", CODE), (f"{STEP}assert a: \\true; *B62_MAY_ALIAS/ i++; // */\n/*@ assert b: \\true;", CODE),
    (f"{STEP}ghost return 0;", WARNING), (f"{STEP}ghost i = 1;", "rror"),
    # A contract that is not one.
    ("== contract base62_encode\nrequires size > 100;\nassigns buffer[0 .. size - 1];", "two contracts"),
    ("== contract here\nrequires \\false;", "syntax error"),
    (ghost("", "assigns \\nothing;", head="__attribute__((pure)) void mutant(void)"), "an attribute"),
    (ghost("", "ensures \\true;"), NO_CONTRACT), (ghost("", "behavior only: assumes \\false; assigns \\nothing;"), NO_CONTRACT),
    (ghost("all = 0;", "assigns all;", before="//@ ghost int all;"), "a ghost function that assigns"),
    (ghost("", "assigns \\nothing; allocates \\nothing;"), CLAUSE),
    (ghost("", "assigns \\nothing; ensures all == 1;", before="//@ ghost int all = 1;", head="void main(void)"),
     "before main"),
    # Another annotation, and one that Frama-C leaves out with a warning.
    (f"{TOP}/*@ global invariant no: \\false; */", KIND), (f"{NEXT}/*@ ensures \\false;", KIND),
    (f"{NEXT}/*@ for none: assert no: \\false;", "rror"), (f"{STEP}assert here: \\nosuch;", WARNING),
    # What WP takes for something else.
    (logic("lemma no: \\forall integer n; n == 2 ==> (integer)(_Bool)n == n;"), "a cast to _Bool"),
    (logic("predicate p(integer n) = \\valid((uint8_t *)n);"), NUMBER), (logic("predicate p(uint8_t *a) = (uintptr_t)a == 0;"), NUMBER),
    (logic("predicate p{L}(char *a) = *a < 128;"), CHAR),
    (ghost("return *a < 128;", "requires \\valid_read(a); assigns \\nothing;", head="int mutant(char *a)"), CHAR),
    # A struct with an array that is read whole.
    (f"{STEP}assert here: *all == \\at(*all, Pre);", READ),
    (logic("predicate p{A, B}(base62_alphabet *t) = \\at(t->bytes, A) == \\at(t->bytes, B);"), READ),
    (ghost("base62_alphabet own = *t;", "requires \\valid_read(t); assigns \\nothing;", head="void mutant(base62_alphabet *t)"), READ),
]

# What is on the list of the C that base62.c may be, and what is not, in a function.
STATEMENTS = [
    *((text, None) for text in (
        "/**/", "i = base62_encode(base62_from_u64(1), (char *)to, i);", "if (base62_encode(base62_from_u64(1), (char *)to, i) == 0) i = 1;",
        "const bool ok = length > 1 && base62_encode(base62_from_u64(1), (char *)to, i) == 2;\n    if (!ok) return 0;",
        "status = length > 1 ? BASE62_OK : status; if (status == BASE62_OK) i = (size_t)'a' * 1u + 0xffffffffff + 5ull;")),
    # What compilers read otherwise, and Frama-C alone.
    *((line, LINE) for line in (
        "#ifndef BASE62_BUILD\n    i++;\n#endif", "#include \"min.inc\"", "/* */ #undef B62_MAY_ALIAS /* */", "#define next(n) (n) + 1",
        "const uint8_t own[] = \"/*\";\n#if SIZE_MAX > 0xffffffff\n    i = own[0];\n#endif\n    copy_bytes(to, \"*/\", 2);",
        "/* \" */\n#if '0' == 48\n    i++;\n#endif /* \" */")),
    *((line, "list of characters") for line in (
        "\t#undef B62_POWER_2", "\v#undef B62_POWER_2", "i = 1; //\ri = 2;", "le\\\nngth = 1;", "// \\ \n    i = 1;",
        "?\x3f=undef B62_POWER_2", "i = '\xe9';")),
    # What is another token with another compiler or language, or has another value or type.
    *((text, "list of tokens") for text in (
        "%:undef B62_POWER_2", "to<:0:> = 1;", "<% i = 1; %>", "i = 8 //* */ 2\n        ;", "//@ ghost i = 1;", "/*@ assert \\true; */",
        "if (__BYTE_ORDER__ == 4321) i = 1;", "#define B62_ORDER __BYTE_ORDER__", "_Pragma(\"GCC optimize (3)\")", "i = _Generic(i, size_t: 8);",
        "i = 0LU - 1;", "i = 1l;", "i = 3000000000;", "i = 0b11;", "i = 1'000;", "i = (size_t)1.5;", "i = (size_t).5;", "i = (size_t)1e3;",
        "i = L'a';", "i = '\\xff';", "i = 'ab';", "static const uint8_t bytes[2] = \"\\xe9\";", "i = sizeof(L\"a\");")),
    # What a machine or a compiler defines. unsigned is no word without char.
    *((text, "list of words") for text in (
        "i = length + (UINT_FAST32_MAX > 0xffffffff);", "if (CHAR_MIN < 0) i = 1;", "i = linux;", "#define B62_MOST INT_MAX\n    i = B62_MOST;",
        "const unsigned long n = 1; i += n;", "const uint_fast32_t n = 1; i += n;", "int n = 0; i = (size_t)n;", "const unsigned n = 1; i += n;",
        "const float n = 1; i = (size_t)n;", "const union { uint8_t a; } n = {1};", "volatile uint8_t n = 1;", "register size_t n = 1;",
        "memcpy(to, part, 5);", "switch (i) { case 1: i = 2; }", "asm(\"\");")),
    # The size and the sign of a field, an enum, a char or another type.
    ("const struct { uint8_t a : 6; } n = {1};", "an attribute"), ("i = sizeof(size_t);", EXPRESSION), ("i = sizeof 'a';", EXPRESSION),
    ("if (status < BASE62_OVERFLOW) i = 1;", EXPRESSION), ("i = (size_t)(status - 1);", EXPRESSION), ("if ((uint64_t)status == 9) i = 1;", EXPRESSION),
    ("i = (size_t)(length > 1 ? status : BASE62_OK);", EXPRESSION), ("status = (base62_status)length;", EXPRESSION),
    ("status = (base62_status)(length > 1 ? BASE62_OK : 300);", EXPRESSION), ("const enum Large { LARGE = 0x80000000 } large = LARGE;", "no int"),
    ("if ((length > 1 ? status : 3) - 5 < 0) i = 1;", EXPRESSION), ("const char c = 'a'; if (c < 0) i = 1;", CHAR),
    ("i = (size_t)(5 % (1 - part[0]));", EXPRESSION),
    # What is read and may not be set.
    ("uint32_t n;", "is not initialized"), ("i = to[0];", EXPRESSION), ("copy_bytes(to, to + 5, 5);", EXPRESSION),
    ("static uint8_t kept = 0; i = kept;", "a static variable"),
    # Two effects, or an effect and a read.
    *((text, "list: an expression") for text in (
        "i = length++ + length;", "to[i++] = (uint8_t)i;", "i = (length = 1) + length;", "i = (i++, 1);", "if (to[i++] == 1) i = 2;")),
    ("i = u64_ilog2(base62_encode(base62_from_u64(1), (char *)to, i));", CALL),
    ("if (base62_encode(base62_from_u64(1), (char *)to, i) == part[0]) i = 1;", CALL),
    ("to[i] = (uint8_t)base62_encode(base62_from_u64(1), (char *)to, i);", CALL),
    # What shares memory.
    ("((uint64_t *)to)[0] = 0;", EXPRESSION), ("((base62_bad_byte *)to)->byte = 0;", EXPRESSION), ("i = (size_t)to;", NUMBER),
    ("uint8_t *B62_RESTRICT other = to; other[0] = 0;", "restrict"), ("if (to == part) i = 1;", EXPRESSION),
    ("i = (size_t)(to - part);", EXPRESSION), ("to = 0;", EXPRESSION), ("const size_t *at = &((const base62_bad_byte *)0)->index;", EXPRESSION),
    ("const struct { size_t n; uint8_t a[2]; } both[2] = {{0, {0}}};", ARRAY),
    ("const struct { size_t n; uint8_t rest[]; } n = {1}; i = n.n;", "an array without a length"),
    ("base62_range n = {{0, 0}, {0, 0}}; uint64_t *at = &n.least.low; at[1] = 1;", EXPRESSION),
    ("for (i = 0; i < 3; i++) to[i] = 0;", STATEMENT),
]

# Other mutants of base62.c: what stands there, what takes its place, and what rejects it.
SOURCES = [
    ("__builtin_clzll(n);", "__builtin_clzll(n | 1);", LINE), ("    //@ assert requires: n != 0;\n", "", LINE),
    (HERE, HERE.replace("uint8_t *to", "uint8_t *B62_RESTRICT to"), "restrict"),
]

# Calls that write, although no parameter is a pointer to bytes that are not const: what stands before here, what in it
# stands before a sum of a read and a call, the call, and what rejects it.
OUT = "typedef struct Out { uint8_t *to; } Out;\n"
WRITES = [
    (OUT + "static size_t poke(Out out) { out.to[0] = 1; return 1; }", "", "poke((Out){to})", POINTER),
    (OUT + "typedef struct More { Out out; } More;\nstatic size_t poke(More more) { more.out.to[0] = 1; return 1; }",
     "", "poke((More){{to}})", POINTER),
    (OUT + "static Out out_of(uint8_t *to) { return (Out){to}; }\nstatic size_t poke(Out out) { out.to[0] = 1; return 1; }",
     "const Out out = out_of(to);\n    ", "poke(out)", POINTER),
    ("typedef struct Out { uint8_t *to[1]; } Out;\nstatic size_t poke(Out out) { out.to[0][0] = 1; return 1; }",
     "", "poke((Out){{to}})", ARRAY),
    ("static size_t poke(uint8_t *const *out) { (*out)[0] = 1; return 1; }", "", "poke(&to)", POINTER),
    ("static size_t poke(const uint8_t *out) { ((uint8_t *)out)[0] = 1; return 1; }", "", "poke(part)", EXPRESSION),
]

# Wrong code of each kind: the function that then has no proof, what stands in base62.c, and what takes its place.
WRONG = [
    # A constant, a comparison, an operator, a condition.
    ("narrow_count", "(n);\n    const size_t estimate = (highest * 43", "(n);\n    const size_t estimate = (highest * 44"),
    ("count_valid", "[text[count]] <= 63", "[text[count]] < 63"), ("u128_sub", "a.low - b.low}", "a.low + b.low}"),
    ("u128_mul_add", "if (high.high != 0)", "if (high.high == 0)"),
    # A statement that is left out, arguments in another order, an entry of a table, a text.
    ("store_bad_byte", "    bad->index = index;\n", ""), ("u128_saturating_add", "u128_less(sum, a)", "u128_less(a, sum)"),
    ("standard_letter", "'9', 'A', 'B'", "'9', 'B', 'A'"), ("texts_are_same", "Not a UUID", "Not an UUID"),
    # A width, and strings for UUIDs: one byte is read behind the text, one of two digits is not compared.
    ("decode_fixed_over", "if (length != width)", "if (length < width)"), ("has_urn", "if (length < 9)", "if (length < 8)"),
    ("read_pairs", "all | high | low;", "all | high;"), ("has_hyphens", "text[start + 18] == '-' && ", ""),
    # A pointer out of bounds that nothing reads, a shift of what may be below 0, a cast of what may be too large: each needs
    # its option of Frama-C.
    ("here", "/**/", "const uint8_t *const past = part + 5;"),
    ("here", "/**/", "i = (size_t)(5 - (length > 1 ? 6 : 1) >> 1);"), ("here", "/**/", "i = (size_t)(int)length;"),
]

# fmt: on
# A program that shows what is false by WP's axiom for an array that is read whole.
PROGRAM = """struct all { unsigned char bytes[318]; };
/*@ requires \\valid(s) && s->bytes[5] == 0; assigns *s; */
void mutant(struct all *s) {
    struct all before = *s;
    s->bytes[5] = 1;
    struct all after = *s;
    //@ assert after.bytes[5] == 1;
    //@ assert after.bytes[5] == before.bytes[5];
    //@ assert \\false;
}
"""

# A variable to which a pointer of the caller may point.
OTHER = """unsigned char my_part;
/*@ requires \\valid(p); assigns *p, my_part; ensures my_part == 1 && *p == 2; */
void mutant(unsigned char *p) { my_part = 1; *p = 2; }
"""

# A requirement that nothing meets.
NEVER = """#include "base62.acsl"
/*@ requires \\valid_read(p + (0 .. 3)) && p[1] == 0 && \\forall integer i; 0 <= i < 4 ==> p[i] == '0';
    assigns \\nothing;
    ensures \\result == 0;
*/
int mutant(const char *p) { return 1; }
"""


def once(text, old, new):
    if text.count(old) != 1:
        raise SystemExit(f"{text.count(old)} places in the code, not one, have the text: {old}")
    return text.replace(old, new)


def cases(work):
    """Each mutant text, what has to be printed, and what prints it in a folder."""
    source, laws, specification = wp.CODE.read_bytes().decode(), annotate.laws(), wp.SPECIFICATION.read_text()
    end = source.rindex("\n}\n") + 2
    source = source[:end] + HERE + source[end:]
    bare = wp.prepared(work / "bare", source, wp.BARE)
    wp.tree(bare)
    bare = wp.code(bare)
    whole = annotate.annotated(source, CONTRACT)
    calls = wp.checked(wp.prepared(work / "code", whole)).calls

    def of_code(at, text):
        return wp.checked_code(at, text, CONTRACT)[1].wrong

    def of_lists(at, text):
        return wp.checked(wp.prepared(at, annotate.annotated(source, CONTRACT, text)), bare).wrong

    def of_goals(at, text, name):
        log = wp.proved(wp.prepared(at, text), name, FAILED, 5)
        return [FAILED] if FAILED in log else [*wp.warnings(log)]

    def of_program(at, text):
        file = wp.prepared(at, text)
        return wp.warnings(wp.proved(file, "mutant"), wp.checked(file))

    changes = [("/**/", text, by) for text, by in STATEMENTS] + SOURCES
    for text, first, call, by in WRITES:
        new = HERE.replace("static size_t here", f"{text}\n\nstatic size_t here").replace("/**/", f"{first}i = part[0] + {call};")
        changes.append((HERE, new, by))
    for old, new, by in changes:
        yield new, by, lambda at, text=once(source, old, new): of_code(at, text)
    for text, by in LISTS:
        yield text, by, lambda at, text=text: of_lists(at, text)
    shared = once(whole, "separated(to + (0 .. length - 1)", "separated(to + (0 .. 0)")
    yield "copy_bytes", "restrict", lambda at: wp.checked(wp.prepared(at, shared), bare).wrong
    macro = "#define u128_less(a, b) u128_less(b, a)\n"
    exchanged = once(specification, "#define LETTERS(", macro + "#define LETTERS(")
    yield "u128_less", CODE, lambda at: wp.checked(wp.prepared(at, whole, exchanged), bare).wrong
    more = laws + "/*@ assigns \\nothing; ensures \\false; */ size_t narrow_count(uint64_t n);"
    yield "no body", "no body: narrow_count", lambda at: wp.checked(wp.prepared(at, more), None, calls).wrong
    for name, old, new in WRONG:
        yield name, FAILED, lambda at, name=name, text=once(whole, old, new): of_goals(at, text, name)
    too_large = once(whole, "/**/", "i = (size_t)(70000 * 70000);")
    yield "70000", "guaranteed RTE", lambda at: of_goals(at, too_large, "here")
    yield PROGRAM, "an axiom of WP that is not on the list", lambda at: of_program(at, PROGRAM)
    yield OTHER, "Memory model hypotheses", lambda at: of_program(at, OTHER)
    yield NEVER, "mutant_wp_smoke", lambda at: wp.contradictions(wp.prepared(at, NEVER))


def messages(check, folder):
    """What prove prints of a check."""
    try:
        return [*check(folder)]
    except SystemExit as ended:
        return [str(ended)]


def main(texts):
    with tempfile.TemporaryDirectory() as folder:
        work = pathlib.Path(folder)
        all_cases = [*cases(work)]
        unknown = [text for text in texts if not any(text in case[0] for case in all_cases)]
        if unknown:
            sys.exit(f"no case has the text: {unknown[0]}")
        chosen = [case for case in all_cases if not texts or any(text in case[0] for text in texts)]
        results = wp.at_once(lambda i: messages(chosen[i][2], work / str(i)), range(len(chosen)))
    failed = 0
    for (text, by, _), lines in zip(chosen, results):
        if not any(by in line for line in lines) if by else lines:
            print(f"not rejected by {by!r}:\n{text}\nbut by {lines}")
            failed += 1
    print(f"{len(results) - failed} passed, {failed} failed")
    return 1 if failed else 0


if __name__ == "__main__":
    sys.exit(main(sys.argv[1:]))
