"""Runs Frama-C: what its tree has, and what WP proves, one function at a time."""

import collections
import concurrent.futures
import functools
import os
import re
import shutil
import signal
import subprocess
import tempfile

import allowed_tokens
import annotate
import bits
from annotate import FOLDER, hints
from bits import PATH

C = FOLDER.parent
BITS = os.environ.get("BITS", "64")
CODE = C / "base62.c"
HEADER = C / "base62.h"
SPECIFICATION = FOLDER / "base62.acsl"
# What stands before the bare code: no specification, and nothing that says who reads it.
BARE = "#include <stddef.h>\n#include <stdint.h>\n#undef __FRAMAC__\n"
FLAGS = f"-D__FC_MACHDEP_X86_{BITS} -DBASE62_NO_INT128 -U__SIZEOF_INT128__ -U__GNUC__"
LIMIT = int(os.environ.get("LIMIT", "20"))
CORES = int(os.environ.get("CORES", os.cpu_count()))
# The lemmas of a file, in the place of a function.
LEMMAS = "@lemma"


@functools.cache
def tools():
    """A folder with what Frama-C needs: the walk over its tree, and why3's list of provers."""
    missing = [tool for tool in "frama-c ocamlfind why3 z3 cvc4 cvc5 gcc".split() if not shutil.which(tool, path=PATH)]
    if missing:
        raise SystemExit(f"missing in {PATH}, see c/proof/README.md: {' '.join(missing)}")
    folder = tempfile.TemporaryDirectory()
    check_path(folder.name)
    shutil.copy(FOLDER / "allowed.ml", folder.name)
    library = subprocess.check_output(["frama-c", "-print-lib-path"], env={"PATH": PATH}, text=True).strip()
    compiler = f"ocamlfind ocamlopt -shared -I {library} -package zarith,ocamlgraph -o allowed.cmxs allowed.ml"
    subprocess.run(compiler.split(), cwd=folder.name, env=environment(folder.name), check=True)
    detect = ["why3", "config", "detect"]
    subprocess.run(detect, cwd=folder.name, env=environment(folder.name), check=True, capture_output=True)
    return folder


def environment(folder, **more):
    """All that the tools get of the environment: no folder of plugins, headers, libraries or results but this one."""
    return {"PATH": PATH, "HOME": folder, "WHY3CONFIG": f"{folder}/why3.conf", "LC_ALL": "C.UTF-8", **more}


def check_path(path):
    if not re.fullmatch(r"[\w./-]+", str(path)):
        raise SystemExit(f"a path that a shell or Frama-C would read otherwise: {path}")


def prepared(work, code, specification=None):
    """A file of this code, in a folder of its own with base62.h and the specification, or with another text of this."""
    check_path(work)
    work.mkdir(parents=True, exist_ok=True)
    (work / SPECIFICATION.name).write_text(specification or SPECIFICATION.read_text())
    shutil.copy(HEADER, work)
    file = work / CODE.name
    file.write_text(code)
    return file


def frama_c(file, name, options, last=None, **more):
    """What Frama-C says of a file, up to a line that has the last text. The folder of the file keeps it by the name."""
    folder = tools().name
    flags = f"-include {file.parent / SPECIFICATION.name} {FLAGS}"
    command = f"frama-c -load-module {folder}/allowed.cmxs -machdep base62_{BITS}".split()
    command += [f"-cpp-extra-args={flags}", file, *options]
    output = {"text": True, "stdout": subprocess.PIPE, "stderr": subprocess.STDOUT, "start_new_session": True}
    log = []
    with subprocess.Popen(command, cwd=folder, env=environment(folder, **more), **output) as running:
        for line in running.stdout:
            log.append(line)
            if last and last in line:
                os.killpg(running.pid, signal.SIGKILL)
                return "".join(log)
    (file.parent / f"{name}.log").write_text("".join(log))
    if running.returncode:
        raise SystemExit("".join(log))
    return "".join(log)


def tree(file):
    """What allowed.ml finds in a file: the kind, the name, and what. Warnings are rejected too."""
    table = file.parent / "tree.tsv"
    log = frama_c(file, "tree", [], TREE=str(table))
    rows = [tuple(line.split("\t")) for line in table.read_text().splitlines()]
    return rows + [("rejected", "", warning) for warning in warnings(log)]


def code(file):
    """Each definition of a file as tree has printed it, but for a mark that changes no code, for line breaks, and for the
    literals before it."""

    def counted(text):
        names = {}
        return re.sub(r"__constr_expr(_\d+)?", lambda match: names.setdefault(match[0], f"literal_{len(names)}"), text)

    text = re.sub(r"\n *", " ", (file.parent / "tree.tsv.c").read_text().replace("__inline ", ""))
    return sorted(map(counted, text.split("\f")))


# What is to be proved of a file, which calls of base62.h it defines or declares, which of its constants no pointer of a
# caller points to, its axioms and lemmas, the bits of a size_t, and what it has that is rejected.
Checked = collections.namedtuple("Checked", "to_prove calls constants axioms bits wrong")


def checked(file, bare=None, calls=None):
    """A file as its tree is. base62.c with annotations has the code of the bare one, as Frama-C prints it, and no plain
    char. The laws have no body for these calls, and one for all else."""
    rows = tree(file)
    names = {kind: set() for kind in ("defined", "declared", "public", "axiom", "lemma", "constant")}
    for kind, name, _ in rows:
        names.setdefault(kind, set()).add(name)
    kinds = {"rejected", "char"} if bare else {"rejected"}
    wrong = [f"rejected: {name} {what}" for kind, name, what in dict.fromkeys(rows) if kind in kinds]
    wrong += [f"no body: {name}" for name in sorted(names["declared"] - (set() if bare else calls or names["public"]))]
    wrong += bits.wrong(rows)
    if bare:
        annotated, plain = collections.Counter(code(file)), collections.Counter(bare)
        changed = sorted((annotated - plain + (plain - annotated)).elements())
        wrong += [f"the lists change the code: {definition.strip()[:120]}" for definition in changed]
    to_prove = names["defined"] | ({LEMMAS} if names["lemma"] else set())
    constants, axioms = set() if calls else names["constant"], names["axiom"] | names["lemma"]
    return Checked(to_prove, names["public"], constants, axioms, *names["bits"], wrong)


def checked_code(work, source, *more):
    """The file of base62.c with annotations; and what is said of it, and of what is not on the list of the C it may be."""
    words = allowed_tokens.unlisted(HEADER.read_bytes().decode(), source)
    bare = prepared(work / "bare", source, BARE)
    rows = tree(bare)
    words -= {name for kind, name, _ in rows if kind == "declares"}
    if words:
        raise SystemExit(f"not on the list of words: {' '.join(sorted(words))}")
    file = prepared(work, annotate.annotated(source, *more))
    result = checked(file, code(bare))
    result.wrong.extend(what for kind, _, what in rows if kind == "unlisted")
    return file, result


def proved(file, function, last=None, limit=LIMIT):
    """What WP says of a function or of all lemmas, with a limit of seconds for each goal."""
    # Both provers try a goal at the same time, until one of them proves it.
    options = "-wp -wp-prover cvc4,z3 -wp-par 2 -wp-msg-key print-generated -wp-rte".split()
    options += [f"-warn-{wrong}" for wrong in ("invalid-pointer", "signed-downcast", "right-shift-negative")]
    options += ["-wp-timeout", str(limit), "-wp-prop" if function == LEMMAS else "-wp-fct", function]
    options += [] if (function, "not split") in hints() else ["-wp-split"]
    # What stands in constant tables slows provers.
    options += [] if (function, "with tables") in hints() else ["-wp-no-init-const"]
    cache = os.environ.get("CACHE")
    options += ["-wp-cache", "update", "-wp-cache-dir", cache] if cache else ["-wp-cache", "none"]
    return frama_c(file, function, options, last)


def contradictions(file):
    """The requirements of a file that nothing meets, as far as WP's smoke tests find them in a second each."""
    # WP has no smoke test for a function without any other goal, so it proves what a function writes.
    options = "-wp -wp-smoke-tests -wp-no-smoke-dead-code -wp-no-smoke-dead-loop -wp-no-smoke-dead-call -wp-no-init-const"
    options += " -wp-prop=-@requires,-@ensures,-@invariant,-@variant,-@lemma,-@assert"
    options = f"{options} -wp-smoke-timeout 1 -wp-timeout 1 -wp-prover cvc4 -wp-par {CORES}".split()
    tests = re.findall(r"^\[wp\] \[(\w+)\] Smoke-test (\w+)", frama_c(file, "smoke", options), re.M)
    return [name for answer, name in tests if answer != "Passed"] or ([] if tests else ["no smoke test"])


def at_once(task, names):
    """The answers of a task, with as many at once as there are cores."""
    tools()  # Or else several threads would make them.
    with concurrent.futures.ThreadPoolExecutor(CORES) as pool:
        return [*pool.map(task, names)]


def goals(log):
    """Each goal: its name, whether it is proved, and the time of the prover in milliseconds."""
    for prover, name, rest in re.findall(r"^\[wp\] \[([\w. ]+)\] Goal (\w+)(.*)", log, re.M):
        units = {"ms": 1, "s": 1000, "'": 60000}
        times = [int(float(n) * units[unit]) for n, unit in re.findall(r"\(([\d.]+)(ms|s|')\)", rest)]
        yield name, prover.split()[0] in {"Qed", "CVC4", "Z3"}, max(times, default=0)


# With what a message begins if nothing is wrong. Its other lines are empty or begin with a blank.
MESSAGE = re.compile(
    r"""\[kernel\][ ]Parsing[ ]\S+[ ]\(with[ ]preprocessing\) | \[rte:annot\][ ]annotating[ ]function[ ]\w+
    | \[wp\][ ](?:Running[ ]WP[ ]plugin\.\.\.|\d+[ ]goals?[ ]scheduled|Computing[ ]\[\d+[ ]goals\.\.\.\]|Proved[ ]goals:.*)
    | \[wp\][ ]\[(?:Qed|CVC4[ ][\d.]+|Z3[ ][\d.]+|Failed)\][ ]Goal[ ].* | \[wp\][ ]\[Cache\].*
    | \[wp:print-generated\][ ] | -+ | ---[ ]Context[ ].* | theory[ ]\w+ | end""",
    re.X,
)
# The axioms of WP on which a goal may rest: of definitions, of variables and constants, and of structs of numbers that are
# read whole. That for an array that is read whole is false in WP 25.
OF_STRUCT = r"Q_Load_(?:Init_)?S\d_base62_(?:bad_byte|number|range)_(?:eqmem|havoc|update)_\w+"
AXIOM = re.compile(rf"L_\w+_def|Q_[KL]_\w+_\d+_(?:init|linked|region)|{OF_STRUCT}")


def is_hypothesis(message, constants):
    """Whether WP takes it that a pointer of a caller points to none of these constants. None can: they are private, and no
    exported function returns a pointer to one."""
    pattern = r"\[wp\] \S+: Warning: \n  Memory model hypotheses for function '\w+':\n  /\*@(.*)\*/(.*);\n*"
    match = re.fullmatch(pattern, message, re.S)
    clauses, head = ({*re.findall(r"[a-zA-Z_]\w*", part)} for part in match.groups()) if match else ({""}, set())
    return clauses - head - {"behavior", "wp_typed", "requires", "separated", "uint8_t", "const"} <= constants and constants


def warnings(log, checked=None):
    """What Frama-C says besides what is listed, and other axioms on which goals rest than those listed or of the file."""
    constants = checked.constants if checked else set()
    for message in re.split(r"\n(?=[^ \n])", log.strip("\n")):
        if not (MESSAGE.fullmatch(message.split("\n")[0]) or is_hypothesis(message, constants)):
            yield message.strip()
    listed = {f"Q_{name}" for name in checked.axioms} if checked else set()
    for axiom in sorted({*re.findall(r"^ *axiom (\w+)", log, re.M)} - listed):
        if not AXIOM.fullmatch(axiom):
            yield f"a goal rests on an axiom of WP that is not on the list: {axiom}"
