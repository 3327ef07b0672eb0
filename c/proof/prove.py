#!/usr/bin/python3 -B
"""Proves base62.c and laws.c with Frama-C's WP: c/proof/prove.py [FUNCTIONS..]

It prints the goals without a proof, the bits of a size_t, how many goals are proved and how many failed. It fails if a
goal has no proof, if an axiom of WP or a message of Frama-C is not listed in wp.py, a token not in allowed_tokens.py or a
node of its tree not in allowed.ml, or if the code without annotations and ghosts is not that of base62.c. Without names it
fails too if WP's smoke tests find a requirement that nothing meets. It names each goal that takes over a third of its limit.

Variables: BITS (32 for a machine of 32 bits), CORES (how many functions are proved at once), LIMIT (seconds for a
goal), WORK (an empty folder for the annotated code and the logs), CACHE (a folder of results of provers, for a proof
that is being made: it fails).
"""

import os
import pathlib
import re
import sys
import tempfile

import annotate
import wp


def proved(file, names, checked):
    """Each goal of functions of a file, or of all lemmas; and what is wrong with what WP says of them."""
    goals, wrong = [], []
    for function, log in zip(names, wp.at_once(lambda name: wp.proved(file, name), names)):
        tried = [*wp.goals(log)]
        passed = sum(is_proved for _, is_proved, _ in tried)
        counts = [map(int, each) for each in re.findall(r"^\[wp\] Proved goals: +(\d+) / (\d+)$", log, re.M)]
        if [passed, len(tried)] != [*map(sum, zip(*counts))]:
            wrong.append(f"not counted so by Frama-C: {passed} of {len(tried)} goals of {function}")
        wrong += [f"{function}: {warning}" for warning in wp.warnings(log, checked)]
        goals += tried
    return goals, wrong


def main(chosen):
    work = pathlib.Path(os.environ.get("WORK") or tempfile.mkdtemp()).resolve()
    if work.exists() and [*work.iterdir()]:
        sys.exit(f"not an empty folder: {work}")
    file, code = wp.checked_code(work, wp.CODE.read_bytes().decode())
    laws = wp.prepared(work / "laws", annotate.laws())
    of_laws = wp.checked(laws, calls=code.calls)
    wrong = code.wrong + of_laws.wrong + ["results are of CACHE"] * ("CACHE" in os.environ)
    wrong += [f"no such function: {name}" for name in sorted({*chosen} - code.to_prove - of_laws.to_prove)]
    if not chosen:
        wrong += [f"nothing meets it: {name}" for path in (file, laws) for name in wp.contradictions(path)]
    goals = []
    for path, checked in (file, code), (laws, of_laws):
        names = checked.to_prove & {*chosen} if chosen else checked.to_prove
        more, others = proved(path, sorted(names), checked)
        goals += more
        wrong += others
    failed = [name for name, is_proved, _ in goals if not is_proved]
    wrong += [f"not proved: {name}" for name in failed]
    slow = [f"slow: {name} {took / 1000:.1f} s" for name, _, took in goals if 3 * took > 1000 * wp.LIMIT]
    print("".join(line + "\n" for line in slow + wrong), end="")
    print(f"size_t: {code.bits} bits")
    print(f"{len(goals) - len(failed)} passed, {len(wrong)} failed")
    return 1 if wrong else 0


if __name__ == "__main__":
    sys.exit(main(sys.argv[1:]))
