"""The extension, over base62.c and base62.h, and what an sdist has of the repository."""

import ast
import json
import tempfile
from pathlib import Path

from setuptools import Extension, setup
from setuptools.command.build_ext import build_ext
from setuptools.command.sdist import sdist

STUB = Path("base62/_base62.pyi")
# They are above this folder in the repository, and within it in an sdist.
SHARED = ["VERSION", "CHANGELOG.md", "c/base62.c", "c/base62.h", "tests/values.tsv"]
top = Path("." if Path("VERSION").exists() else "..")


class SharedSdist(sdist):
    def make_release_tree(self, base_dir, files):
        super().make_release_tree(base_dir, [file for file in files if not file.startswith("..")])
        for name in SHARED:
            copy = Path(base_dir, name)
            self.mkpath(str(copy.parent))
            self.copy_file(str(top / name), str(copy))


def docstring_macro(node):
    """Return the docstring of a function or a class for C, after the signature that the module inspect reads."""
    is_class = isinstance(node, ast.ClassDef)
    arguments = next(member for member in node.body if isinstance(member, ast.FunctionDef)).args if is_class else node.args
    for argument in (*arguments.posonlyargs, *arguments.args):
        argument.annotation = None
    first = "" if is_class else "$module, " if arguments.posonlyargs else "$module, /, "
    signature = f"{node.name}({first}{ast.unparse(arguments).removeprefix('cls, ')})"
    docstring = f"{signature}\n--\n\n{ast.get_docstring(node)}"
    return f"#define DOC_{node.name} {json.dumps(docstring)}\n"


class DocumentedBuild(build_ext):
    """Writes the docstrings of the stub to a header first."""

    def run(self):
        documented = [node for node in ast.parse(STUB.read_text()).body if isinstance(node, (ast.FunctionDef, ast.ClassDef))]
        self.mkpath(self.build_temp)
        Path(self.build_temp, "_docstrings.h").write_text("".join(map(docstring_macro, documented)))
        self.include_dirs.append(self.build_temp)
        super().run()


extension = Extension(
    "base62._base62",
    [f"base62/{name}.c" for name in ("_base62", "_alphabet", "_uuid", "_columns", "_library")],
    include_dirs=[str(top / "c")],
    py_limited_api=True,
)
# A wheel has all that its build's folder has, so that each build has a new one.
folder = tempfile.TemporaryDirectory()
setup(
    options={"build": {"build_base": folder.name}},
    version=(top / "VERSION").read_text().strip(),
    # As a field of pyproject.toml it has a form until setuptools 77, and another since.
    license="MIT",
    ext_modules=[extension],
    data_files=[("share/doc/base62-proved", [str(top / "CHANGELOG.md")])],
    cmdclass={"build_ext": DocumentedBuild, "sdist": SharedSdist},
)
