#!/usr/bin/env python3
"""Makes docs/API.md, or another file, the page of all public types and calls with their contracts, from the sources.

A library is a crate of crates.txt that has src/lib.rt; static ones are left out. Of each public item the page has
the signature, the first sentence of its doc comment and the clauses of its contract; of a law, its name and what it
says. The page is not kept in git; a release has it. tests/test_pages.py checks what is made.
"""
import argparse
import functools
import os
import re
import textwrap


TOP = os.path.dirname(os.path.dirname(os.path.abspath(__file__)))
PAGE = os.path.join("docs", "API.md")
INTRODUCTION = """\
# Public types and calls, with their contracts

Made by `tools/make_api.py` from the sources; do not edit it. Each item has the first sentence of its doc comment, which
goes on in the source with the errors, the allocations of the call, and examples. A call that allocates takes
`alloc: Global` and returns a `Result`.

Each call is followed by the clauses of its contract, each proved for every input. `result` is what the call returns,
and `x.now` the value of `x` at the call. `Answers view result given` says that the result, as the view shows it, is
what the definition gives, including its refusals; `AnswersOrMemory` says the same unless memory runs out. `GivesText`,
`GivesTexts`, `ReadsText` and `ReadsBytes` are `AnswersOrMemory` for texts and bytes. `IfOk` and `IfErr` speak of one
kind of result only. The definitions are in the `specs` directory of each crate.
"""
# an item of some indentation: its doc comment, its attributes, its first words, and all before its body
ITEM = r"^((?:{0}///[^\n]*\n)*)((?:{0}(?:#\[|// )[^\n]*\n)*){0}({1})(.*?)(?:;| ?\{{\}}?|\n{0}\{{\}}?)$"
FIELD = r"^((?:    ///[^\n]*\n)*)(?:    #\[[^\n]*\n)*    {}(?:,| (\{{\n.*?\n    \}}),)$"
ASSOCIATED = r"^((?:    ///[^\n]*\n)*)    type (\w+[^\n]*);$"
# the head of an implementation of a trait, after its type parameters
IMPLEMENTS = re.compile(r"^ (?:\w+::)*(\w+(?:<[^\n]*>)?) for ([^\n]+?)(?: where [^\n]*)? \{", re.MULTILINE)
CLAUSE = re.compile(r"\b(ensures|requires)\*? ?(\w*) ?\{ ?(.*?) ?\}(?= (?:ensures|requires)\b|$)")
# what only contracts see
GHOST_TRAITS = {"Model"}


@functools.cache
def text_of(path):
    """The text of a file of the repository."""
    with open(os.path.join(TOP, path), encoding="utf-8") as file:
        return file.read()


@functools.cache
def crates():
    """The crates, lowest first, with the dependencies of each."""
    lines = re.findall(r"^(\w+)[^:#\n]*:(.*)", text_of("crates.txt"), re.MULTILINE)
    return {name: below.split() for name, below in lines}


def root_of(crate):
    """The text of a library's root file; of a program, nothing."""
    path = os.path.join("crates", crate, "src", "lib.rt")
    return text_of(path) if os.path.isfile(os.path.join(TOP, path)) else ""


def is_static(crate):
    """Whether a crate is a static library, whose calls are described in a header."""
    return re.search(rf"^{crate} staticlib:", text_of("crates.txt"), re.MULTILINE) is not None


@functools.cache
def libraries():
    """The crates that are libraries, lowest first, without static ones."""
    return [name for name in crates() if root_of(name) and not is_static(name)]


def sources(crate):
    """The texts of a crate's source files."""
    for directory, _, names in sorted(os.walk(os.path.join(TOP, "crates", crate, "src"))):
        for name in sorted(names):
            if name.endswith(".rt"):
                yield text_of(os.path.join(directory, name))


def after_parameters(text):
    """What follows the type parameters that a text begins with, if it does."""
    depth = 0
    for at, sign in enumerate(text):
        depth += {"<": 1, ">": -1}.get(sign, 0) if text[at - 1] != "-" else 0
        if depth == 0:
            return text[at + 1 :] if sign == ">" else text
    return text


@functools.cache
def defined(kinds, crate):
    """The names of the items of these kinds that a crate defines, public or not."""
    return {name for text in sources(crate) for name in found(rf"^(?:pub(?:\(\w+\))? )?(?:{kinds}) (\w+)", text)}


@functools.cache
def implementations(crate):
    """The implementations of traits in a crate: trait and type, as the sources write them."""
    pairs = []
    for text in sources(crate):
        for rest in re.split(r"^impl", text, flags=re.MULTILINE)[1:]:
            head = IMPLEMENTS.match(after_parameters(rest))
            pairs += [head.groups()] if head else []
    return pairs


def base(text):
    """The name of a type or trait without its path and parameters, or nothing for a reference or a tuple."""
    name = re.match(r"(?:\w+::)*(\w+)(?:<|$)", text)
    return name.group(1) if name else ""


def implemented(item, crate, public):
    """The traits that a type of that crate implements, or the public types that implement a trait of it."""
    is_trait = item.kind == "trait"
    kinds = "trait" if is_trait else "struct|enum"
    names = []
    for other in libraries():
        if other != crate and (crate not in crates()[other] or item.name in defined(kinds, other)):
            continue
        for trait, implementer in implementations(other):
            if base(trait if is_trait else implementer) != item.name or base(trait) in GHOST_TRAITS:
                continue
            own = [("trait", base(trait)), ("struct|enum", base(implementer))]
            is_private = any(name not in public and name in defined(kind, other) for kind, name in own)
            names += [] if is_private else [implementer if is_trait else trait]
    return list(dict.fromkeys(item.traits + names))


def found(pattern, text):
    """The matches of a pattern over lines."""
    return re.findall(pattern, text, re.MULTILINE | re.DOTALL)


def body_of(begin, text):
    """The lines inside the braces of the items of a text that begin so at the top level."""
    return "".join(found(rf"^{begin}[^\n]* \{{\n(.*?)^\}}$", text))


def source_directory(path):
    """The directory `src` of a source file."""
    return re.match(r".*/src(?=/)", path).group()


class Item:
    """A public item: what it is, its name, its signature, its clauses, its doc comment, its members and its traits."""

    def __init__(self, kind, text, doc, attributes=""):
        self.kind = kind
        self.name = re.match(r"(?:\w+ )?(\w+)", text).group(1)
        text = re.sub(r"\s+", " ", text).replace("( ", "(").replace(", )", ")")
        self.clauses = CLAUSE.findall(text)
        self.signature = re.split(r" (?:ensures|requires)\b", text)[0]
        self.doc = re.sub(r"^ *//[/!] ?", "", doc, flags=re.MULTILINE)
        self.members = []
        self.traits = re.findall(r"\w+", "".join(re.findall(r"#\[derive(?:_where)?\((.*?)\)\]", attributes)))

    def paragraph(self):
        """The first paragraph of the doc comment."""
        return " ".join(self.doc.split("\n\n")[0].split())

    def sentence(self):
        """The first sentence of the doc comment."""
        return re.split(r"(?<=\.)\s", self.paragraph())[0]


class Module:
    """A source file: its doc comment, its public items, and what it takes from other files."""

    def __init__(self, path):
        self.directory = os.path.dirname(path) if path.endswith("lib.rt") else path.removesuffix(".rt")
        self.text = text_of(path)
        self.doc = "".join(found(r"^//![^\n]*\n", self.text))
        self.modules = found(r"^pub mod (\w+);", self.text)
        self.items = []
        for doc, attributes, words, rest in found(ITEM.format("", r"pub (?:const|fn|struct|enum|trait) "), self.text):
            kind = words.split()[1]
            rest = re.sub(r" = (?!\d+$).*", "", rest, flags=re.DOTALL) if kind == "const" else rest
            item = Item(kind, f"{kind} {rest}", doc, attributes)
            self.items.append(item)
            item.members = members(self.body(rf"pub {kind} {item.name}\b"), kind)
            item.members += members(self.body(rf"impl(?:<[^>]*>)? {item.name}\b(?! for)"), "impl")
            tables = os.path.join(source_directory(path), "tables.rt")
            if os.path.isfile(tables) and path != tables:
                item.members += members(body_of(rf"impl(?:<[^>]*>)? {item.name}\b", text_of(tables)), "impl")

    def body(self, begin):
        """The lines inside the braces of what begins so at the top level."""
        return body_of(begin, self.text)

    def inner(self, path):
        """The source file of a module below this one."""
        return os.path.join(self.directory, *path.split("::")) + ".rt"

    def public_items(self):
        """The public items: its own, and what it takes from other files of the crate."""
        items = list(self.items)
        for path, names in found(r"^pub use (?:self::)?([\w:]+)::\{?([^{};]*)\}?;$", self.text):
            if os.path.isfile(self.inner(path)):
                taken = re.findall(r"\w+", names)
                items += [item for item in Module(self.inner(path)).public_items() if item.name in taken]
        return items


def members(body, kind):
    """The public members in the body of a type, an implementation or a trait."""
    if kind in ("impl", "trait"):
        calls = found(ITEM.format("    ", "pub fn " if kind == "impl" else "fn "), body)
        types = found(ASSOCIATED, body) if kind == "trait" else []
        types = [Item("type", f"type {text}", doc) for doc, text in types]
        return types + [Item("fn", f"fn {rest}", doc) for doc, _, _, rest in calls]
    fields = found(FIELD.format(r"pub (\w+: [^\n]*?)" if kind == "struct" else r"(\w+(?:\([^\n]*\))?)"), body)
    return [Item("field", f"{text} {without_comments(rest)}".strip(), doc) for doc, text, rest in fields]


def without_comments(fields):
    """The named fields of a variant, in one line."""
    return re.sub(r",\s*\}", " }", re.sub(r"^\s*///[^\n]*\n", "", fields, flags=re.MULTILINE))


def public_modules(path, name):
    """The public modules of a source file, itself first: name, doc comment and public items of each."""
    module = Module(path)
    yield name, module.doc, module.public_items()
    for inner in module.modules:
        yield from public_modules(module.inner(inner), f"{name}::{inner}")


@functools.cache
def crate_modules(crate):
    """The public modules of a crate."""
    return list(public_modules(os.path.join(TOP, "crates", crate, "src", "lib.rt"), crate))


def wrapped(text, indent=""):
    """A paragraph or an entry of a list in lines of the page's width."""
    return textwrap.wrap(text, 120, subsequent_indent=indent, break_long_words=False, break_on_hyphens=False)


def entry(item):
    """The lines of an entry of a list, with its contract."""
    lines = wrapped(f"- `{item.signature}`: {item.sentence()}", "  ")
    for word, name, text in item.clauses:
        label = ("requires " if word == "requires" else "") + (f"`{name}`: " if name else "")
        lines += wrapped(f"  - {label}`{text}`", "    ")
    return lines


def type_lines(item, traits):
    """The lines of a type or a trait, with the traits or types that belong to it."""
    lines = ["", f"### `{item.signature}`", "", *wrapped(item.sentence())]
    if item.members:
        lines += ["", *(line for member in item.members for line in entry(member))]
    if traits:
        word = "Implemented for" if item.kind == "trait" else "Implements"
        lines += ["", *wrapped(f"{word} {', '.join(f'`{trait}`' for trait in traits)}.")]
    return lines


def module_lines(name, doc, items, public):
    """The lines of a public module; `public` has the names of all public items of its crate and those above it."""
    lines = ["", f"## `{name}`", "", *wrapped(Item("mod", name, doc).sentence())]
    entries = [item for item in items if item.kind in ("const", "fn")]
    if entries:
        lines.append("")
    for item in entries:
        is_law = name.endswith("::laws")
        lines += wrapped(f"- `{item.name}`: {item.paragraph()}", "  ") if is_law else entry(item)
    for item in items:
        if item not in entries:
            lines += type_lines(item, implemented(item, name.split("::")[0], public))
    return lines


def page():
    """The text of the page."""
    modules = [module for crate in libraries() for module in crate_modules(crate)]
    public = {item.name for _, _, items in modules for item in items}
    lines = INTRODUCTION.rstrip("\n").split("\n")
    lines += ["", *wrapped("Libraries, lowest first: " + ", ".join(f"[{name}](#{name})" for name in libraries()) + ".")]
    for name, doc, items in modules:
        lines += module_lines(name, doc, items, public)
    return "\n".join(lines) + "\n"


def main():
    """Writes the page."""
    parser = argparse.ArgumentParser(description=__doc__, formatter_class=argparse.RawDescriptionHelpFormatter)
    parser.add_argument("file", metavar="FILE", nargs="?", default=os.path.join(TOP, PAGE), help=f"where the page goes (default: {PAGE})")
    path = parser.parse_args().file
    if not os.path.isdir(os.path.dirname(os.path.abspath(path))):
        parser.error(f"there is no directory for {path}")
    with open(path, "w", encoding="utf-8") as file:
        file.write(page())


if __name__ == "__main__":
    main()
