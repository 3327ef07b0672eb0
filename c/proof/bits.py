"""Proves axioms on bits by the bit vectors of z3 and cvc5. allowed.ml writes a query for each axiom of Frama-C's AST,
in which macros are replaced. Its numbers are signed, of 192 bits: enough for each value within the axiom's bounds."""

import functools
import subprocess

# Where all tools are.
PATH = "/usr/bin:/bin"


@functools.cache
def results(query):
    """What each prover says of a query. It has to be unsat: nothing contradicts the axiom."""
    commands = ["z3", "-in"], ["cvc5", "--lang=smt2"]
    text = f"(set-logic QF_BV)\n{query}\n"
    settings = {"input": text, "env": {"PATH": PATH}, "capture_output": True, "text": True, "timeout": 300}
    return [(command[0], subprocess.run(command, **settings).stdout.strip()) for command in commands]


def wrong(tree):
    """The axioms of a tree that a prover does not prove."""
    for kind, name, query in tree:
        for prover, result in results(query) if kind == "axiom" else []:
            if result != "unsat":
                yield f"{prover} does not prove the axiom {name}: {result}"
