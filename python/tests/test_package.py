"""Tests of the package: its exports, README, reimports and subinterpreters."""

import ast
import contextlib
import ctypes
import doctest
import gc
import importlib
import importlib.metadata
import importlib.util
import inspect
import pathlib
import pydoc
import re
import shlex
import sqlite3
import subprocess
import sys
import tomllib
import types
import unittest
import unittest.mock
import weakref
from collections import defaultdict
from typing import Any

import base62
from base62 import _base62, _types
from calls import CALLS, CUSTOM, OWNED, PACKAGE, README, TOP, each_call, page, valid_arguments
from test_memory import load_extension

# The module by which a Python makes others.
INTERPRETERS = "_interpreters" if sys.version_info >= (3, 13) else "_xxsubinterpreters"
# The types of the parameters, by name.
TYPES = {"number": "Number", "value": "AnyUUID", "width": "SupportsIndex", "alphabet": "AnyAlphabet"}
TYPES |= {"text": "EncodedString", "prefix": "EncodedString", "characters": "str | bytes"}


def type_of(result: object) -> str:
    """The type as the stub names it."""
    if isinstance(result, tuple):
        return f"tuple[{', '.join(map(type_of, result))}]"
    return type(result).__name__.removesuffix("Type")


class Package(unittest.TestCase):
    def test_exports(self) -> None:
        """The functions and types, in the order of README, say where users find them. What modules import is none."""
        names = {name for name in dir(base62) if name[0] != "_"}
        self.assertEqual(sorted(base62.__all__), sorted(names - {"columns"}))
        self.assertEqual(base62.__all__, sorted(base62.__all__, key=re.findall(r"`(\w+)[`(]", README).index))
        for name in names - {"AnyAlphabet", "AnyUUID", "EncodedString", "Number", "columns"}:
            self.assertTrue(inspect.getdoc(getattr(base62, name)), name)
            self.assertEqual(getattr(base62, name).__module__, "base62", name)

    def test_help(self) -> None:
        """The first 60 lines have the usual calls with their results, and a line for each other function."""
        shown = "\n".join(pydoc.plain(pydoc.render_doc(base62)).splitlines()[:60])
        usual = "".join(example.source for example in doctest.DocTestParser().get_examples(shown) if example.want)
        self.assertEqual({*re.findall(r"base62\.(\w+)\(", usual)}, {"encode", "decode", "encode_uuid_key", "decode_uuid_key"})
        others = re.findall(r"(?m)^ +(\w+)\([a-z, ]+\)  +\w", shown)
        self.assertEqual(sorted(others + re.findall(r"base62\.(\w+)\(", usual)), sorted(call.__name__ for call in CALLS))
        for call in CALLS:
            self.assertIn("\n>>> ", inspect.getdoc(call) or "", call.__name__)

    def test_columns_without_pyarrow(self) -> None:
        """What is missing is named, and how it is installed. The package does not need it."""
        # An old one has all but the type of UUIDs.
        for other in (None, types.ModuleType("pyarrow"), types.SimpleNamespace(compute=None)):
            with unittest.mock.patch.dict(sys.modules, {"pyarrow": other}):
                self.assertEqual(reimported().encode(1337), "LZ")
                with self.assertRaisesRegex(ImportError, "needs pyarrow: install pyarrow 18 or later$"):
                    reimported("base62.columns")
        with unittest.mock.patch("sys.byteorder", "big"), self.assertRaisesRegex(ImportError, "needs a little-endian machine$"):
            reimported("base62.columns")

    def test_installed(self) -> None:
        """The files and what they say of themselves: one wheel serves each Python from 3.11 on."""
        package = importlib.metadata.distribution("base62-proved")
        self.assertEqual((base62.__version__, package.version), ((TOP / "VERSION").read_text().strip(),) * 2)
        files = {file.name: file for file in package.files or () if file.suffix != ".pyc"}
        modules = [file.name for file in files.values() if file.parts[0] == "base62"]
        wanted = ["__init__.py", "_base62.pyi", "_types.py", "columns.py", "py.typed", pathlib.Path(_base62.__file__).name]
        self.assertEqual(sorted(modules), sorted(wanted))
        self.assertEqual(files["LICENSE"].read_text(), (TOP / "LICENSE").read_text())
        self.assertEqual(files["CHANGELOG.md"].read_text(), (TOP / "CHANGELOG.md").read_text())
        self.assertEqual(package.metadata["Description"].strip(), (PACKAGE / "README.md").read_text().strip())
        licences = [value for value in package.metadata.get_all("Classifier") if value.startswith("License")]
        self.assertEqual([package.metadata["License"], *licences], ["MIT", "License :: OSI Approved :: MIT License"])
        self.assertEqual(package.metadata["Requires-Python"], ">=3.11")
        self.assertRegex(package.metadata["Requires-Dist"], r"^pyarrow\W*>=18\W*extra == .columns.$")
        self.assertRegex(package.read_text("WHEEL") or "", "(?m)^Tag: cp311-abi3-")

    def test_wheel_commands(self) -> None:
        """cibuildwheel builds one wheel. Its commands run tests, of which one is enough here."""
        wheels = tomllib.loads((PACKAGE / "pyproject.toml").read_text())["tool"]["cibuildwheel"]
        self.assertEqual(wheels["build"], "cp311-*")
        for command in (wheels["test-command"], wheels["windows"]["test-command"]):
            python, *arguments = shlex.split(command.format(package=PACKAGE))
            self.assertEqual(python, "python")
            run = subprocess.run([sys.executable, *arguments, "-k", "test_zeros"], capture_output=True, text=True)
            self.assertRegex(run.stderr, r"(?s)\nRan [1-9].*\n\nOK")

    def test_signatures(self) -> None:
        """Calls take their parameters by name, in any order."""
        for call in CALLS:
            given = dict(reversed(valid_arguments(call).items()))
            self.assertEqual(call(**given), call(*reversed(given.values())))
            if given.pop("alphabet", None):
                self.assertIs(inspect.signature(call).parameters["alphabet"].default, base62.Alphabet.STANDARD)
                self.assertEqual(call(**given), call(*reversed(given.values()), base62.Alphabet.STANDARD))

    def test_stub(self) -> None:
        """Editors show what help shows. Parameters of one name have one type, and results each type of the stub."""
        stub = ast.parse(pathlib.Path(_base62.__file__).with_name("_base62.pyi").read_text())
        documented = [node for node in stub.body if isinstance(node, (ast.FunctionDef, ast.ClassDef))]
        texts = {node.name: ast.get_docstring(node) for node in documented}
        shown = {name: inspect.getdoc(one) for name, one in vars(_base62).items() if callable(one)}
        self.assertEqual(texts, shown)
        arguments = [value for node in ast.walk(stub) if isinstance(node, ast.FunctionDef) for value in node.args.args]
        self.assertEqual({(each.arg, ast.unparse(each.annotation)) for each in arguments if each.annotation}, {*TYPES.items()})
        found = defaultdict[str, set[str]](set)
        for call in each_call():
            with contextlib.suppress(Exception):
                found[call.func.__name__].add(type_of(call()))
        for node in stub.body:
            if isinstance(node, ast.FunctionDef) and node.returns:
                self.assertEqual(found[node.name], {*ast.unparse(node.returns).split(" | ")}, node.name)

    def test_wrong_arguments(self) -> None:
        """Too few or too many, one of another name, and one twice. The call is named."""
        for call in CALLS:
            names = [*valid_arguments(call)]
            least = len(names) - ("alphabet" in names)
            wrong: list[tuple[int, list[str]]] = [(least - 1, []), (len(names) + 1, [])]
            for count, named in (*wrong, (least, ["other"]), (least, names[:1])):
                with self.assertRaisesRegex(TypeError, call.__name__ + r"\(\)"):
                    call(*["1"] * count, **dict.fromkeys(named, "1"))

    def test_great_number(self) -> None:
        with contextlib.closing(sqlite3.connect(":memory:")) as db:
            self.assertRaises(OverflowError, db.execute, "SELECT ?", (base62.decode("AzL8n0Y58m8"),))

    def test_private_library(self) -> None:
        """The library's own calls are not seen by other libraries of the process."""
        extension = ctypes.CDLL(_base62.__file__)
        self.assertTrue(hasattr(extension, "PyInit__base62"))
        for name in ("base62_encode", "borrow", "encode_rows"):
            self.assertFalse(hasattr(extension, name))


def reimported(name: str = "base62") -> Any:
    """Imports another copy of a module of the package, as another interpreter would."""
    others = {other: module for other, module in sys.modules.items() if other.split(".")[0] != "base62"}
    with unittest.mock.patch.dict(sys.modules, others, clear=True):
        return importlib.import_module(name)


class Modules(unittest.TestCase):
    def test_reimported(self) -> None:
        again = reimported()
        self.assertIsNot(again.encode, base62.encode)
        self.assertIsNot(again.InvalidByteError, base62.InvalidByteError)
        for module in (again, base62):
            self.assertEqual(module.encode(1337, module.Alphabet.ALTERNATIVE), "lz")
            self.assertRaises(module.InvalidByteError, module.decode, "-")

    def test_other_uuids(self) -> None:
        """If a Python's UUID has other attributes, its own way creates one."""

        class Other:
            def __init__(self, *, int: int) -> None:
                self.number = int

        with unittest.mock.patch("uuid.UUID", Other):
            again = reimported()
        self.assertEqual(vars(again.decode_uuid("LZ")), {"number": 1337})

    def test_other_pythons(self) -> None:
        """Where the extension cannot find what it uses of CPython, it converts arguments by Python's own functions."""
        with unittest.mock.patch.multiple(_types, BYTES_SIZE=bytes.__basicsize__ - 16):
            again = load_extension("base62._base62")
        for alphabet, text in ((again.Alphabet(CUSTOM), "LZ"), (again.Alphabet.ALTERNATIVE, "lz")):
            number = base62.decode(text, bytes(alphabet))
            self.assertEqual((again.decode(text, alphabet), again.encode(number, alphabet)), (number, text))
            source, new = ("L", 0, 1, None, number.to_bytes(8, sys.byteorder), None), [*map(bytearray, (1, 16, 11))]
            self.assertEqual(again._convert_rows(True, alphabet, -1, source, ("U", *new), False), (1, 2, 0))
            self.assertEqual(new[2][:2], text.encode())

    def test_unload(self) -> None:
        """An unloaded module releases its objects."""
        again = reimported()
        left = [weakref.ref(value) for value in vars(again).values() if callable(value)]
        self.assertGreaterEqual(len(left), len(OWNED))
        del again
        gc.collect()
        self.assertEqual([one() for one in left], [None] * len(left))

    @unittest.skipUnless(importlib.util.find_spec(INTERPRETERS), "this Python has no module for interpreters")
    def test_interpreters(self) -> None:
        """From 3.12 on an isolated one has its own GIL, and accepts only modules that support this."""
        said = "import base62\nassert base62.decode(base62.encode(2**128 - 1)) == 2**128 - 1"
        maker: Any = importlib.import_module(INTERPRETERS)
        for isolated in (False, True) * 3:
            if sys.version_info >= (3, 13):
                other = maker.create("isolated" if isolated else "legacy")
            else:
                other = maker.create(isolated=isolated)
            # Some Pythons raise an error of the other interpreter, and some return it.
            self.assertIsNone(maker.run_string(other, said))
            maker.destroy(other)
        self.assertEqual(base62.encode(1337), "LZ")


def load_tests(loader: unittest.TestLoader, tests: unittest.TestSuite, pattern: object) -> unittest.TestSuite:
    # Those of _types are found where callers find them.
    tests.addTests(doctest.DocTestSuite(base62, globs={"base62": base62}))
    tests.addTest(doctest.DocTestCase(page("README.md")))
    return tests
