"""Tests of memory: each allocation of a call fails in turn, alone and with all later ones, and nothing leaks."""

import gc
import importlib
import importlib.util
import sys
import unittest
import uuid
from array import array
from typing import Any

import base62
from base62 import _types
from calls import LETTERS, OWNED, WIDE, Call, each_call

# A call has made its allocations if it succeeds although each of the next ones would fail. No call makes so many.
NEXT_ALLOCATIONS = 25
MAX_ALLOCATIONS = 240
# What calls borrow, besides what they are given. WIDE is the int of UUIDs.
BORROWED: list[object] = [None, False, True, 0, 64, WIDE, uuid.UUID, *OWNED]

try:
    memory: Any = importlib.import_module("_testcapi")
except ImportError:
    memory = None


def outcome(call: Call, given: tuple[object, ...], named: dict[str, object]) -> object:
    try:
        return call(*given, **named)
    except (ValueError, TypeError, OverflowError) as error:
        if not str(error) and type(error) in (ValueError, TypeError, OverflowError):
            # An earlier 3.11 drops a message whose allocation fails.
            raise MemoryError from error
        return type(error), str(error), vars(error)


def load_extension(name: str) -> Any:
    """Return a new module of an extension, which CPython's own functions load."""
    spec = importlib.util.find_spec(name)
    assert spec is not None
    of_python: Any = importlib.import_module("_imp")
    module = of_python.create_dynamic(spec)
    of_python.exec_dynamic(module)
    return module


@unittest.skipIf(memory is None, "this Python has no _testcapi, by which allocations fail")
class Allocations(unittest.TestCase):
    failures = 0

    def reports_failure(self, wanted: object, first: int, last: int, call: Call, *given: Any, **named: Any) -> bool:
        """Return whether a call reports that an allocation failed: those from the first to before the last do,
        counted from 0. Otherwise it returns what it always does."""
        try:
            memory.set_nomemory(first, last)
            try:
                result = outcome(call, given, named)
            finally:
                memory.remove_mem_hooks()
        except MemoryError:
            return True
        except SystemError as error:
            # CPython raises this if it cannot allocate the frame of a function or of a traceback.
            self.assertRegex(str(error), "^(<function .* returned NULL without setting an exception|error return without )")
            return True
        self.assertEqual(result, wanted)
        return False

    def sweep(self, call: Call, *given: Any, **named: Any) -> None:
        """Makes each allocation of the call fail in turn, first alone and then with all later ones."""
        wanted = outcome(call, given, named)
        for follow in (False, True):
            failures: list[bool] = []
            while len(failures) < NEXT_ALLOCATIONS or any(failures[-NEXT_ALLOCATIONS:]):
                first = len(failures)
                self.assertLess(first, MAX_ALLOCATIONS, f"{call} makes more allocations")
                last = 0 if follow else first + 1
                failures.append(self.reports_failure(wanted, first, last, call, *given, **named))
            self.failures += sum(failures)

    def check_no_leak(self, call: Call, *given: Any, **named: Any) -> None:
        """Sweeps leave the blocks and the references as they were, in the end: CPython keeps some blocks for itself."""

        def state() -> "array[int]":
            gc.collect()
            listed = (row for value in given if isinstance(value, list) for row in value)
            counts = map(sys.getrefcount, [*BORROWED, *given, *named.values(), *listed])
            # An array has no block for each count.
            return array("q", [sys.getallocatedblocks(), *counts])

        for _ in range(20):
            before = state()
            for _ in range(4):
                self.sweep(call, *given, **named)
            if all(abs(now - was) < 4 for was, now in zip(before, state())):
                return
        self.fail(f"{call} of {given} and {named} leaks, or releases what it borrows")

    def test_calls(self) -> None:
        for call in each_call():
            self.check_no_leak(call.func, *call.args, **call.keywords)
        self.assertGreater(self.failures, 50)

    def test_loading(self) -> None:
        """A module that fails to load releases what it has imported."""
        before = sys.getrefcount(_types.to_bytes)
        self.sweep(lambda: load_extension("base62._base62").encode(WIDE))
        gc.collect()
        self.assertEqual(sys.getrefcount(_types.to_bytes), before)
        self.assertGreater(self.failures, 50)

    def test_alphabet(self) -> None:
        """A call with an Alphabet allocates at most its result, which may be an int of CPython's free lists."""
        calls: list[Any] = [(base62.encode, 1337), (base62.encode_fixed, 1337, 22), (base62.decode, "LZ")]
        for alphabet in (base62.Alphabet.STANDARD, base62.Alphabet.ALTERNATIVE, LETTERS):
            for call, *given in calls:
                # The first sweep fills CPython's free lists.
                self.sweep(call, *given, alphabet)
                self.failures = 0
                self.sweep(call, *given, alphabet)
                self.assertIn(self.failures, (0, 2) if call is base62.decode else (2,), call)
