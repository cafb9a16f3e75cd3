"""The pages beside the repository: links, paths, names, quoted sources, API.md as it is made, and the commands of
docs/SCRIPTS.md.

On every page each link leads to a file, or to a heading, that exists; and each path in backquotes that begins with a
directory of the top exists. On the pages that claim something of the sources each name in backquotes that has a `_` or a
`::` inside is declared in a source, a definition or crates.txt, and each module and each definition that the table of
readings names has its file. A fence of the README that names its source, as in
```rust crates/mailparse/src/mail.rt, has lines that occur there word for word and one after another.
"""

import glob
import os
import re

import pytest

from support import TOP, program, run, text_of

from fences import fences_of
from make_api import PAGE, base, crate_modules, crates, found, libraries, page, sources

PAGES = (
    "*.md", "docs/*.md", "python/*.md", "crates/*/data/README.md", "tests/*.md", "tools/*.md", "bench/**/*.md",
    "oracle/**/*.md", "examples/*/README.md",
)
CLAIMS = ("docs/ARCHITECTURE.md", "docs/CALLING.md", "docs/PROVED.md")
SOURCES = ("crates/*/src/**/*.rt", "crates/*/specs/**/*.antt")
DECLARED = re.compile(
    r"\b(?:fn|struct|enum|trait|mod|const|type|ensures\*?|requires|record|data|impl)\s+(\w+)"
    r"|^\s*(?:abbrev |unfoldable )?(?:pub )?(\w+) :|^\s*pub (\w+):|^    (\w+)(?:\(.*\))?,$",
    re.MULTILINE,
)


def matching(patterns):
    """The files that match one of some patterns, from the top."""
    return sorted(path for pattern in patterns for path in glob.glob(pattern, root_dir=TOP, recursive=True))


def anchors(text):
    """The anchors of the headings of a page."""
    headings = re.findall(r"^#+ (.*)$", text, re.MULTILINE)
    return {re.sub(r"[^\w\- ]", "", heading.lower()).replace(" ", "-") for heading in headings}


def links(page, text):
    """For each link of a page to this repository what it is, and whether it leads somewhere."""
    for path, anchor in re.findall(r"\]\((?!\w+:)([^)#\s]*)#?([^)\s]*)\)", text):
        other = os.path.normpath(os.path.join(os.path.dirname(page), path)) if path else page
        is_there = other == page or (other != PAGE and os.path.exists(os.path.join(TOP, other)))
        headings = text if other == page else text_of(other) if is_there and anchor else ""
        yield f"the link {path}#{anchor}", is_there and (not anchor or anchor in anchors(headings))


def paths(text):
    """For each path in backquotes what it is, and whether it is there; not what is built, nor CRATE and the like."""
    for path in re.findall(r"`(?:\./)?((?:crates|docs|tools|tests|bench|oracle|samples|examples|python|c|\.ci)/[\w./-]*)(?: [^`]*)?`", text):
        if not re.search(r"/out/|\b[A-Z]+\b(?<!README)(?!\.md)", path):
            yield f"the path {path}", os.path.exists(os.path.join(TOP, path))


def names(text, declared):
    """For each name in backquotes what it is, and whether it is declared."""
    for name in re.findall(r"`(\w+(?:::\w+)*)(?:\(\))?`", text):
        if re.search(r"[a-z](_|::)[a-z]", name) and not name.startswith("std::"):
            yield f"the name {name}", all(word in declared for word in name.split("::"))


def quotes(text):
    """For each fence that names its source: its description, and whether the source has its lines."""
    for fence in fences_of(text):
        if len(fence.words) == 2:
            source = "\n".join(line.strip() for line in text_of(fence.words[1]).split("\n"))
            yield f"the fence at line {fence.number}", "\n".join(line.strip() for line in fence.lines) in source


def readings(text):
    """For each module and definition that the table of readings of docs/ARCHITECTURE.md names: whether its file is there.

    It is of the crate that its cell names before it, or else of that of its column; a definition has a capital letter.
    """
    table = re.search(r"^## Who reads how$.*?^(\|.*?)^$", text, re.M | re.S)[1]
    heads, _, *rows = [line.strip("| ").split(" | ") for line in table.splitlines()]
    for row in rows:
        yield f"the row {row[0]} has a cell for each column", len(row) == len(heads)
        for head, cell in list(zip(heads, row))[1:]:
            crate = re.search(r"`(\w+)`", head)[1]
            for name in re.findall(r"`([^`]+)`", cell):
                crate = name if name in crates() else crate
                path = f"specs/{name}.antt" if re.match(r"(?:\w+/)?[A-Z]", name) else f"src/{name.replace('::', '/')}.rt"
                yield f"{path} of {crate}", name == crate or os.path.isfile(os.path.join(TOP, "crates", crate, path))


@pytest.fixture(scope="module")
def declared():
    """The names that the sources, the definitions and crates.txt declare."""
    names = set(re.findall(r"\w+", text_of("crates.txt")))
    for path in matching(SOURCES):
        names.update(word for words in DECLARED.findall(text_of(path)) for word in words)
    return names


@pytest.mark.quick
@pytest.mark.parametrize("path", [path for path in matching(PAGES) if path != PAGE])
def test_page(path, declared):
    """A page."""
    text = text_of(path)
    found = [*links(path, text), *paths(text)]
    found += names(text, declared) if path in CLAIMS else []
    found += quotes(text) if path == "README.md" else []
    assert [what for what, is_well in found if not is_well] == []


@pytest.mark.quick
def test_readings():
    """Each module and each definition that the table of readings names exists."""
    judged = list(readings(text_of("docs/ARCHITECTURE.md")))
    assert len(judged) > 150
    assert [what for what, is_well in judged if not is_well] == []


def imported():
    """The names that a crate imports from a library, each with that library."""
    for crate in crates():
        for text in sources(crate):
            for library, names in found(r"^use (\w+)::(?:\w+::)*((?:\{[^{}]*\}|\w+)(?: as \w+)?);", text):
                if library in libraries() and library != crate:
                    yield from ((library, name) for name in re.findall(r"(?<!as )\b(?!as\b|self\b)\w+", names))


def are_complete(text):
    """For each name that is imported, and for each implementation of a public trait: whether the page has it."""
    for library, name in sorted(set(imported())):
        yield f"{PAGE}: {name} of {library} is missing", re.search(rf"\b{name}\b", text) is not None
    sections = {base(head): rest for head, rest in re.findall(r"^### `trait (\w+).*?`$(.*?)(?=^#|\Z)", text, re.M | re.S)}
    for crate in libraries():
        for head in {line for text in sources(crate) for line in re.findall(r"^impl\b.* for .*(?= \{$)", text, re.M)}:
            trait, implementer = head.rsplit(" for ", 1)
            trait = re.sub(r"<[^<>]*>$", "", trait).split("::")[-1].split()[-1]
            if trait in sections and re.search(rf"^### `(?:struct|enum) {base(implementer) or '-'}\b", text, re.M):
                yield f"{PAGE}: {trait} for {implementer} is missing", f"`{implementer}`" in " ".join(sections[trait].split())


def are_described():
    """For each public module and item of the libraries, and for each member: whether its doc comment says something."""
    for module, doc, items in (module for crate in libraries() for module in crate_modules(crate)):
        yield f"{module} has no comment", bool(doc.strip())
        for item in items:
            yield from ((f"{module}: {item.name}: {it.name} has no comment", bool(it.sentence())) for it in (item, *item.members))


@pytest.mark.quick
def test_api(tmp_path):
    """API.md, which tools/make_api.py makes, is what the sources give, and is complete. git ignores it."""
    ended = run([TOP / "tools" / "make_api.py", tmp_path / "API.md"])
    assert (ended.returncode, ended.stdout, ended.stderr) == (0, b"", b"")
    made = (tmp_path / "API.md").read_text(encoding="utf-8")
    assert made == page()
    assert set(libraries()) <= set(re.findall(r"^## `(\w+)`$", made, re.MULTILINE))
    judged = [*links(PAGE, made), *paths(made), *are_complete(made), *are_described()]
    assert [what for what, is_well in judged if not is_well] == []
    assert run(["git", "check-ignore", "-q", PAGE], cwd=TOP).returncode == 0


def commands(page):
    """The commands of a page, each with what it writes."""
    for fence in fences_of(page):
        block = "".join(f"{line}\n" for line in fence.lines if fence.words == ["console"])
        for command in re.split(r"^\$ ", block, flags=re.M)[1:]:
            yield command.split("\n", 1)


@pytest.mark.parametrize("command, wanted", list(commands(text_of("docs/SCRIPTS.md"))))
def test_commands(command, wanted):
    """A command of docs/SCRIPTS.md that begins with `$ ` writes what the page shows."""
    program("rocktray")
    ended = run(["bash", "-c", command], cwd=TOP)
    assert ended.stdout.decode() == wanted, ended.stderr.decode()
