#!/usr/bin/env python3
"""Runs the examples in the doc comments of crates/base62, each as a test of its own. It takes the kit, and proves nothing."""
import re
import shutil
import subprocess
import sys
import tempfile
from pathlib import Path

CRATES = Path(__file__).resolve().parent.parent / "crates"
HEAD = "//! The examples of doc comments.\n#![tactic(auto)]\n\nuse std::test::Fail;\n"
TEST = "\n#[test]\nfn {name}(rt: HostRuntime) -> Result<(), Fail> {{\n{body}    Ok(())\n}}\n"
BLOCK = re.compile(r"//[/!] ```rust\n(.*?)//[/!] ```\n", re.S)


def examples(file: Path) -> list[tuple[str, str]]:
    """The examples of a file, each with a name that says where it is."""
    text = re.sub(r"(?m)^ +(?=//[/!])", "", file.read_text())
    place = "_".join(file.relative_to(CRATES / "base62" / "src").with_suffix("").parts)
    named = []
    for match in BLOCK.finditer(text):
        line = text.count("\n", 0, match.start(1)) + 1
        body = re.sub(r"(?m)^//[/!] ?", "    ", match[1])
        named.append((f"example_{place}_{line}", re.sub(r"(?m)^ +$", "", body)))
    return named


def main() -> None:
    named = [pair for file in sorted((CRATES / "base62" / "src").rglob("*.rt")) for pair in examples(file)]
    with tempfile.TemporaryDirectory() as folder:
        top = Path(folder)
        shutil.copytree(CRATES / "base62", top / "crates" / "base62", ignore=shutil.ignore_patterns("out", "must-fail"))
        (top / "crates.txt").write_text("base62:\nexamples: base62\n")
        source = top / "crates" / "examples" / "src" / "lib.rt"
        source.parent.mkdir(parents=True)
        source.write_text(HEAD + "".join(TEST.format(name=name, body=body) for name, body in named))
        ran = subprocess.run(
            ["rt", "try", "--test"], cwd=source.parent.parent, stdout=subprocess.PIPE, stderr=subprocess.STDOUT, text=True
        )
    passed = [name for name, _ in named if f"test {name} ... ok\n" in ran.stdout]
    print(ran.stdout, end="")
    print(f"{len(passed)} passed, {len(named) - len(passed)} failed")
    sys.exit(ran.returncode or len(passed) != len(named) or not named)


if __name__ == "__main__":
    main()
