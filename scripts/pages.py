#!/usr/bin/env python3
"""Checks the pages of the repository, which are its Markdown files.

    scripts/pages.py links [FOLDER]        checks that each link to a page, a heading or a file has a target, in the
                                           pages that git tracks or in those of the folder, which they do not leave,
                                           and that a power such as 2**63 is code: two of them would be bold
    scripts/pages.py write PAGE FOLDER     writes each block of PAGE whose fence names files, as in: ```c lz.c
    scripts/pages.py run PAGE FOLDER       runs PAGE in FOLDER: writes such files, runs blocks of sh in bash,
                                           and compares what one prints with the block of text after it
    scripts/pages.py rows PAGE             prints the rows of Install: user|packages|command|command that tries it

A file that several fences name has their blocks one after the other. A block of console is compared with what its lines
that begin with `$ ` print as one script, errors too.
"""

import re
import shlex
import subprocess
import sys
from collections import defaultdict
from collections.abc import Iterator
from pathlib import Path

BLOCK = re.compile(r"(?ms)^```(.*?)\n(.*?)^```$")
ROW = re.compile(r"\| [^|]+ \| (?:`([^`|]+)` )?\| (as root, )?`([^`|]+)` \| `([^`|]+)` \|")
LINK = re.compile(r"\]\((?![a-z]+:)([^)\s]+)\)")


def prose(page: Path) -> str:
    """What is between the blocks."""
    text = BLOCK.sub("", page.read_text())
    if "\n```" in text:
        raise SystemExit(f"{page}: a block has no end")
    return text


def anchors(page: Path) -> set[str]:
    """The headings, as links name them."""
    headings = re.findall(r"(?m)^#+ (.*)$", prose(page))
    return {re.sub(r"[^\w\- ]", "", heading.lower()).replace(" ", "-") for heading in headings}


def lost_links(pages: list[Path], top: Path) -> Iterator[str]:
    for page in pages:
        for link in LINK.findall(prose(page)):
            path, _, heading = link.partition("#")
            to = (page.parent / path if path else page).resolve()
            if not to.is_relative_to(top.resolve()) or not to.exists() or heading and heading not in anchors(to):
                yield f"{page}: {link} leads nowhere"


def bare_powers(pages: list[Path]) -> Iterator[str]:
    for page in pages:
        for power in re.findall(r"\w+(?:\\?\*){2}\w+", re.sub("`[^`]+`", "", prose(page))):
            yield f"{page}: {power} is not code"


def write(page: Path, folder: Path) -> None:
    prose(page)  # Each block has an end.
    files = defaultdict[str, list[str]](list)
    for fence, text in BLOCK.findall(page.read_text()):
        for name in fence.split()[1:]:
            files[name].append(text)
    for name, texts in files.items():
        (folder / name).parent.mkdir(parents=True, exist_ok=True)
        (folder / name).write_text("\n".join(texts))


def run(page: Path, folder: Path) -> None:
    write(page, folder)
    printed = None
    for fence, text in BLOCK.findall(page.read_text()):
        if fence in ("sh", "console"):
            print(f"{page}: runs:\n{text}", end="", flush=True)
            commands = re.findall(r"(?m)^\$ (.*)$", text)
            shown = "".join(f"echo {shlex.quote(f'$ {command}')}\n{command} || :\n" for command in commands)
            script = text if fence == "sh" else f"exec 2>&1\n{shown}"
            bash = ["bash", "-euc", script]
            ran = subprocess.run(bash, cwd=folder, stdin=subprocess.DEVNULL, stdout=subprocess.PIPE, text=True)
            printed = ran.stdout
            if ran.returncode:
                raise SystemExit(f"{page}: it ended with status {ran.returncode}, and printed:\n{printed}")
        if fence in ("", "text", "console"):
            if printed != text:
                raise SystemExit(f"{page}: instead of this it printed:\n{text}\n{printed}")
            printed = None
    if "\n```sh\n" not in page.read_text():
        raise SystemExit(f"{page}: it has no block to run")


def rows(page: Path) -> Iterator[str]:
    table = re.search(r"(?ms)^## Install$(?:(?!^## ).)*?^\|[-|]+\n((?:\|.*?\n)+)", prose(page))
    for row in table[1].splitlines() if table else [""]:
        if not (cells := ROW.fullmatch(row)):
            raise SystemExit(f"{page}: Install has a row whose commands cannot be run: {row}")
        yield "|".join(["root" if cells[2] else "user", cells[1] or "", cells[3], cells[4]])


def main() -> None:
    match sys.argv[1:]:
        case ["links", *folder] if len(folder) < 2:
            names = subprocess.run(["git", "ls-files", "*.md"], check=True, capture_output=True, text=True).stdout
            pages = [*Path(*folder).rglob("*.md")] if folder else [*map(Path, names.splitlines())]
            if errors := [*lost_links(pages, Path(*folder)), *bare_powers(pages)]:
                raise SystemExit("\n".join(errors))
        case ["write", page, folder]:
            write(Path(page), Path(folder))
        case ["run", page, folder]:
            run(Path(page), Path(folder))
        case ["rows", page]:
            print("\n".join(rows(Path(page))))
        case _:
            raise SystemExit(__doc__)


if __name__ == "__main__":
    main()
