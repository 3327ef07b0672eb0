"""Tests of what base62.h defines and what compilers warn of, and of base62.c: its names, what it demands of compilers,
and, as README.md says, which external functions it calls and how much stack it takes. CC is the compiler, by default gcc,
and CFLAGS and CXXFLAGS are how it warns.
"""

import itertools
import os
import pathlib
import re
import shlex
import subprocess
import tempfile
import unittest

FOLDER = pathlib.Path(__file__).resolve().parents[1]
COMPILER = shlex.split(os.environ.get("CC") or "gcc")
IS_GCC = "Free Software Foundation" in subprocess.run([*COMPILER, "--version"], capture_output=True, text=True).stdout
IS_X86_64 = os.uname().machine == "x86_64"
INCLUDES = "#include <stddef.h>\n#include <stdint.h>\n"
HEADER = "#include <base62.h>\n"
SOURCE = '#include "base62.c"\n'

# Each line gets the warning behind it: clang has only those of results and of null pointers.
PROGRAM = """#include <base62.h>
char text[5];
base62_number number;
base62_bad_byte bad;
base62_status status;
size_t size;
int main(void) {
size = base62_encode(number, text, sizeof text);
base62_encode(number, text, sizeof text); // unused-result
status = base62_decode(text, 5, NULL, &bad); // nonnull
size = base62_encode(number, text, 6); // stringop-overflow
status = base62_decode(text, 6, &number, &bad); // stringop-overread
base62_to_uuid(number, NULL); // nonnull
}
"""


def compiled(source, *options, language="c"):
    command = [*COMPILER, f"-I{FOLDER}", *options, f"-x{language}", "-"]
    return subprocess.run(command, input=source, capture_output=True, text=True, check=True)


def object_of_source(*options):
    """The names of base62.c's object, each with its kind, and what GCC writes of the calls and stack of functions."""
    with tempfile.TemporaryDirectory() as folder:
        file = pathlib.Path(folder, "base62.o")
        compiled(SOURCE, "-std=c99", *(["-fcallgraph-info=su"] if IS_GCC else []), *options, "-c", f"-o{file}")
        listed = subprocess.run(["nm", file], capture_output=True, text=True, check=True).stdout
        graph = file.with_suffix(".ci").read_text() if IS_GCC else ""
        return {name: kind for kind, name in re.findall(r"(?m) ([A-Za-z]) (\w+)$", listed)}, graph


def stack(graph):
    """The most bytes of stack that each exported function takes, with all that it calls."""
    sizes = {name: int(size) for name, size in re.findall(r'node: \{ title: "(.*?)" .*?\\n(\d+) bytes \(', graph)}
    calls = re.findall(r'edge: \{ sourcename: "(.*?)" targetname: "(.*?)"', graph)

    def deepest(name):
        # A call pushes its return address.
        return 8 + sizes[name] + max((deepest(to) for caller, to in calls if caller == name), default=0)

    return {name: deepest(name) for name in sizes if name.startswith("base62_")}


def text_of_header(*options, language="c"):
    """What the header has beside its includes."""
    # For a compiler that is not GNU glibc defines away what it lacks.
    source = f"{INCLUDES}#undef __attribute__\nit_begins_here\n{HEADER}"
    return compiled(source, "-E", "-P", *options, language=language).stdout.split("it_begins_here")[1]


class Header(unittest.TestCase):
    maxDiff = None

    def test_attributes(self):
        """Each function has those for its pointers, for its result, and for each string and buffer with a length."""
        text = re.sub(r"/\*.*?\*/", "", (FOLDER / "base62.h").read_text(), flags=re.S)
        declared = re.findall(r"((?:BASE62_\w+(?:\(\d, \d\))?\s+)*)(\w+) (base62_\w+)\(([^()]*)\)(?:;| \{)", text)
        self.assertGreater(len(declared), 25)
        for attributes, result, name, parameters in declared:
            checked = "NO_NULL" if result in ("void", "base62_number") else "CHECK_RESULT"
            wanted = {checked} if re.search(r"[*\[]", parameters) else set()
            for place, parameter in enumerate(re.split(r",\s+", parameters), 1):
                if string := re.fullmatch(r"(const )?char \*\w+", parameter):
                    wanted.add(f"{'READS' if string[1] else 'WRITES'}({place}, {place + 1})")
            self.assertEqual({*re.findall(r"BASE62_(?!API|INLINE)(\w+(?:\(.*?\))?)", attributes)}, wanted, name)

    def test_warnings(self):
        printed = compiled(PROGRAM, "-Wall", "-S", "-o/dev/null").stderr
        warned = re.findall(r"<stdin>:(\d+):\d+: warning: .*\[-W([\w-]+)=?\]", printed)
        wanted = [(str(i), line.split("// ")[1]) for i, line in enumerate(PROGRAM.splitlines(), 1) if "// " in line]
        self.assertEqual({*warned}, {row for row in wanted if IS_GCC or "stringop" not in row[1]})

    def test_unknown_compilers(self):
        """It asks a compiler for nothing that it may lack."""
        self.assertIn("__nonnull__", text_of_header())
        self.assertNotIn("__access__", text_of_header("-U__has_attribute"))
        least = text_of_header("-U__has_attribute", "-U__GNUC__", "-U__SIZEOF_INT128__")
        self.assertNotRegex(least, "__attribute__|__extension__|int128|u128")

    def test_macros(self):
        """It leaves only constants defined."""
        constants = re.findall(r'(?m)^#define (\w+) ["\d]', (FOLDER / "base62.h").read_text())
        for language, *options in ("c",), ("c", "-DBASE62_BUILD"), ("c++", "-D_WIN32", "-DBASE62_SHARED"):
            with self.subTest(language=language, options=options):
                printed = [compiled(text, "-E", "-dM", *options, language=language).stdout for text in (HEADER, INCLUDES)]
                defined, others = (set(re.findall(r"(?m)^#define (\w+)", text)) for text in printed)
                self.assertEqual(defined - others, {"BASE62_H", *constants})

    def test_names_of_the_source(self):
        """base62.c may stand behind other headers: they define OK, TEXT, OVERFLOW and the like."""
        text = re.sub(r"/\*.*?\*/|//[^\n]*|\"[^\"\n]*\"|'[^\n]'", "", (FOLDER / "base62.c").read_text(), flags=re.S)
        defined = re.findall(r"#\s*define (\w+)", text)
        self.assertEqual([name for name in defined if not name.startswith("B62_")], [])
        capitals = {name for name in re.findall(r"\b[A-Z][A-Z0-9_]+\b", text) if not re.match("B(ASE)?62_", name)}
        self.assertEqual(capitals, {"CHAR_BIT", "GCC", "SIZE_MAX", "UINT64_C"})

    def test_c_plus_plus(self):
        """A C++20 module exports no static function. In C++98 a constant above a long of 32 bits is an extension."""
        self.assertNotRegex(text_of_header(language="c++"), r"\bstatic\b")
        if IS_X86_64:
            options = "-mx32 -ffreestanding -std=c++98 -Wall -Wextra -Wpedantic -Wold-style-cast -Wconversion -fsyntax-only"
            self.assertEqual(compiled(HEADER, *options.split(), language="c++").stderr, "")

    def test_standards(self):
        """base62.c in C, and the header in C++98 too, where glibc before 2.18 had no limits of integers."""
        without_limits = INCLUDES + "#undef UINT32_MAX\n#undef UINT64_MAX\n#undef SIZE_MAX\n"
        standards = "c99 gnu99 c11 gnu11 c17 gnu17 c2x gnu2x c++98 c++11 c++17 c++20".split()
        for standard, way in itertools.product(standards, ([], ["-DBASE62_NO_INT128"])):
            text, flags, language = SOURCE + HEADER, "CFLAGS", "c"
            if "+" in standard:
                text, flags, language = without_limits + HEADER + HEADER, "CXXFLAGS", "c++"
            with self.subTest(standard=standard, way=way):
                options = [*shlex.split(os.environ.get(flags, "")), f"-std={standard}", *way]
                compiled(text, *options, "-fsyntax-only", language=language)

    @unittest.skipUnless(IS_GCC, "options of gcc")
    def test_pragmas(self):
        """Code behind base62.c keeps its options. Up to GCC 10 the second pragma would change all of them. The
        headers of GCC 16 have pragmas of diagnostics."""
        for options, pragmas in ([], "push_options optimize pop_options"), (["-U__GNUC__", "-D__GNUC__=10"], ""):
            text = compiled(SOURCE, "-E", *options).stdout
            self.assertEqual(re.findall(r"#pragma GCC (?!diagnostic)(\w+)", text), pragmas.split())

    def test_errors(self):
        """What it cannot be compiled for ends in one error that says so, in C++ too."""
        other = "#include <limits.h>\n#include <stdint.h>\n#undef {0}\n#define {0} {1}\n" + SOURCE
        rejected = [
            ("compile base62.c as C", SOURCE, "c++"),
            ("bytes of 8 bits", other.format("CHAR_BIT", 9), "c"),
            ("a size_t of 32 bits or more", other.format("SIZE_MAX", "0xfffffffe"), "c"),
        ]
        # clang has no other character set.
        rejected += [("ASCII", SOURCE, "c", "-fexec-charset=IBM1047")] if IS_GCC else []
        for message, source, language, *options in rejected:
            with self.assertRaises(subprocess.CalledProcessError, msg=message) as raised:
                compiled(source, *options, "-fsyntax-only", language=language)
            self.assertRegex(raised.exception.stderr, rf'error: (#error )?"(base62.c is for .*)?{message}"')
            self.assertEqual(raised.exception.stderr.count("error: "), 1)
        compiled(other.format("SIZE_MAX", "0xffffffff"), "-fsyntax-only")

    def test_includes(self):
        """They stand outside of extern "C": there no template may stand, as some systems' headers have them."""
        with tempfile.TemporaryDirectory() as folder:
            for name in ("stddef", "stdint"):
                source = f"#include_next <{name}.h>\ntemplate <typename T> struct in_{name};\n"
                (pathlib.Path(folder) / f"{name}.h").write_text(source)
            compiled(HEADER, f"-I{folder}", "-fsyntax-only", language="c++")


class Freestanding(unittest.TestCase):
    @unittest.skipUnless(IS_X86_64, "README speaks of x86-64")
    def test_external_functions(self):
        of_clang = {} if IS_GCC else {"0": {"memcpy", "memset"}, "s": {"memset"}, "z": {"memset"}}
        for level, library in itertools.product("0123s" if IS_GCC else "0123sz", ([], ["-ffreestanding"])):
            with self.subTest(level=level, library=library):
                names, _ = object_of_source(f"-O{level}", *library)
                self.assertEqual(names["base62_encode"], "T")
                self.assertFalse({*names.values()} & {*"BbCDdGgSs"}, "a variable")
                may_call = of_clang.get(level, set()) if library else {"memcpy", "memmove", "memset"}
                self.assertLessEqual({name for name, kind in names.items() if kind == "U"}, may_call)

    @unittest.skipUnless(IS_X86_64 and IS_GCC, "README speaks of GCC on x86-64")
    def test_stack(self):
        readme = (FOLDER / "README.md").read_text()
        most, others = (float(size) * 1000 for size in re.findall(r"at most (\d\.\d) kB of stack", readme))
        for way in [], ["-DBASE62_NO_INT128"]:
            taken = stack(object_of_source("-O2", "-ffreestanding", *way)[1])
            self.assertGreater(len(taken), 20)
            self.assertLessEqual(taken.pop("base62_alphabet_init"), most)
            self.assertLessEqual(max(taken.values()), others)


if __name__ == "__main__":
    unittest.main()
