"""The examples of the doc comments of every library, of docs/CALLING.md and of docs/STARTING.md.

Each fence ```rust becomes a test of its own: the lines unchanged, in a function that has the runtime `rt` and its
allocator `alloc`, and in which `?` passes every error on. `rt try --test` builds and runs them all, without a proof. A
fence with `fn main` is a program and must be that of STARTING. There may be no other fences.
"""

import os
import re
import shutil
import subprocess
import tempfile

import pytest

from support import TOP, missing, run, text_of

from fences import fences, fences_of
from make_api import crate_modules, libraries

pytestmark = pytest.mark.quick
PAGE = os.path.join("docs", "CALLING.md")
DOC = re.compile(r"^\s*//[/!] ?(.*)$")


class Example:
    """A fence of a file: its line number, and its lines."""

    def __init__(self, path, fence):
        self.place = f"{path}:{fence.number}"
        self.name = re.sub(r"\W+", "_", re.sub(r"^crates/|/src|\.\w+$", "", path)).lower() + f"_{fence.number}"
        self.lines = fence.lines
        self.is_program = fence.is_program()
        if fence.words != ["rust"] or not fence.is_ended:
            raise SystemExit(f"{self.place}: a fence that is no example, or has no end")

    def source(self):
        """The module that the example becomes: the `use` lines first, and the rest in a test."""
        imports, body, in_import = [], [], False
        for line in self.lines:
            in_import = in_import or line.startswith("use ")
            (imports if in_import else body).append(line if in_import else f"    {line}".rstrip())
            in_import = in_import and not line.endswith(";")
        return "\n".join(
            [f"//! {self.place}", *imports, "use std::test::Fail;", "", "#[test]"]
            + [f"fn {self.name}(rt: HostRuntime) -> Result<(), Fail> {{"]
            + ["    let alloc = rt.alloc();", *body, "    Ok(())", "}", ""]
        )


def examples():
    """All examples, by file."""
    for crate in libraries():
        for directory, _, names in sorted(os.walk(os.path.join(TOP, "crates", crate, "src"))):
            for name in sorted(names):
                path = os.path.relpath(os.path.join(directory, name), TOP)
                lines = [(number, DOC.match(line)) for number, line in enumerate(text_of(path).split("\n"), 1)]
                for fence in fences([(number, match.group(1).rstrip()) for number, match in lines if match]):
                    yield Example(path, fence)
    for fence in fences_of(text_of(PAGE)):
        yield Example(PAGE, fence)


def comment_faults():
    """For each public call its path, and what its comment lacks."""
    for crate in libraries():
        for module, _, items in crate_modules(crate):
            # a law does nothing, so it has no example
            calls = [(item.name, item) for item in items if item.kind == "fn" and "laws" not in module.split("::")]
            calls += [(f"{item.name}::{it.name}", it) for item in items for it in item.members if it.kind == "fn"]
            for name, call in calls:
                has_errors = re.search(r"-> (io::)?Result<", call.signature) is not None
                is_well = "```rust" in call.doc and ("# Errors" in call.doc) == has_errors
                refers = call.name.endswith("_with") and f"`{call.name.removesuffix('_with')}_in`" in call.doc
                yield f"{module}::{name} has no example, or `# Errors` in the wrong place", is_well or refers


def write_crates(directory, tests):
    """Writes a repository with the libraries and a crate of the examples; returns that crate's directory."""
    kept = [line for line in text_of("crates.txt").split("\n") if line.split(":")[0] in libraries()]
    for crate in libraries():
        there = os.path.join(directory, "crates", crate)
        shutil.copytree(os.path.join(TOP, "crates", crate), there, ignore=shutil.ignore_patterns("out", "edits"))
    source = os.path.join(directory, "crates", "examples", "src")
    os.makedirs(source)
    files = {example.name + ".rt": example.source() for example in tests}
    root = "".join(f"\n#[cfg(test)]\nmod {example.name};\n" for example in tests)
    files["lib.rt"] = "//! The examples.\n#![tactic(auto)]\n" + root
    files["../../../crates.txt"] = "\n".join([*kept, f"examples: {' '.join(libraries())}", ""])
    for name, text in files.items():
        with open(os.path.join(source, name), "w", encoding="utf-8") as file:
            file.write(text)
    return os.path.dirname(source)


def ran(tests):
    """The position of each example, and whether it passed; if they do not build, none has."""
    with tempfile.TemporaryDirectory() as directory:
        command = ["rt", "try", "--test"]
        run = subprocess.run(command, cwd=write_crates(directory, tests), text=True, capture_output=True, check=False)
    output = run.stdout + run.stderr
    passed = set(re.findall(r"^test (\w+)::\w+ \.\.\. ok$", output, re.MULTILINE))
    if run.returncode != 0:
        print(output)
    return [(example.place, example.name in passed) for example in tests]


@pytest.fixture(scope="module")
def found():
    """All examples."""
    if not shutil.which("rt"):
        missing("the kit of Rattle, whose command is rt, is missing")
    return list(examples())


def test_comments():
    """Each public call has an example, and the heading `# Errors` exactly if it returns a `Result`."""
    judged = list(comment_faults())
    assert len(judged) > 100
    assert [what for what, is_well in judged if not is_well] == []


def test_examples(found):
    """Each example passes."""
    judged = ran([example for example in found if not example.is_program])
    assert len(judged) > 100
    assert [place for place, has_passed in judged if not has_passed] == []


def first_fences(word):
    """The lines of the fences of docs/STARTING.md that begin with this word."""
    return [fence.lines for fence in fences_of(text_of("docs/STARTING.md")) if fence.words[:1] == [word]]


def test_first_program(found, tmp_path):
    """What the page says of an own repository works word for word: its commands, its program and what this prints."""
    (program,) = first_fences("rust")
    assert [example.lines for example in found if example.is_program] in ([], [program])
    logic = re.search("logic .*", subprocess.run(["rt", "version"], capture_output=True, text=True, check=True).stdout)[0]
    assert f"`{logic}`" in text_of("README.md") and f"`{logic}`" in text_of("docs/STARTING.md")
    there, mine = tmp_path / "rocktray", tmp_path / "mine"
    for name in ("crates", "samples"):
        shutil.copytree(TOP / name, there / name, ignore=shutil.ignore_patterns("out"))
    shutil.copy(TOP / "crates.txt", there)
    (mine / "crates").mkdir(parents=True)
    console = [line for lines in first_fences("console") for line in lines]
    environment = {**os.environ, "rocktray": str(there)}

    def in_mine(commands):
        return run(["bash", "-euc", commands], cwd=mine, env=environment, timeout=600)

    assert in_mine("\n".join(line for lines in first_fences("sh") for line in lines)).returncode == 0
    (mine / "crates" / "first_mail" / "src" / "main.rt").write_text("\n".join(program) + "\n")
    ended = in_mine("\n".join(line.removeprefix("$ ") for line in console if line.startswith("$ ")))
    wanted = "".join(f"{line}\n" for line in console if not line.startswith("$ "))
    assert ended.stdout.decode() == wanted, ended.stderr.decode()[-5000:]
