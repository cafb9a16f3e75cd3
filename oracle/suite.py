"""The rows of the suite, read as crates/mail_vectors/data/README.md describes them."""

import os
import re
from dataclasses import dataclass, field

TOP = os.path.dirname(os.path.dirname(os.path.abspath(__file__)))

DATA = f"{TOP}/crates/mail_vectors/data"
TOKEN = re.compile(r""" *(?:"([^"]*)"|'([^']*)'|([^ ]+))""")
ESCAPE = re.compile(r"\\(?:u\{([0-9A-Fa-f]+)\}|x([0-9A-Fa-f]{2})|(.))", re.S)
PLAIN = {"n": "\n", "r": "\r", "t": "\t", "0": "\0", "\\": "\\"}
SHOWN = [chr(it) if 32 <= it < 127 and it not in b"\"\\" else f"\\x{it:02X}" for it in range(256)]


@dataclass
class Row:
    """A row: its position, its call, the inputs and the wanted items, and its marks. A text is bytes, and a
    word is str."""

    place: str
    call: str
    inputs: list = field(default_factory=list)
    wanted: list = field(default_factory=list)
    marks: list = field(default_factory=list)

    def marked(self, kind):
        """The names that marks such as `crate:NAME` give."""
        return [it.partition(":")[2] for it in self.marks if it.startswith(f"{kind}:")]


def decoded(raw):
    """The bytes of a text in quotes."""
    parts, at = [], 0
    for found in ESCAPE.finditer(raw):
        code, byte, plain = found.groups()
        parts.append(raw[at : found.start()].encode())
        parts.append(bytes([int(byte, 16)]) if byte else (chr(int(code, 16)) if code else PLAIN[plain]).encode())
        at = found.end()
    return b"".join(parts) + raw[at:].encode()


def row_of(place, text):
    """Reads a row."""
    name, colon, rest = text.partition(": ")
    if not colon or '"' in name or "'" in name:
        name, rest = "", text
    call, _, rest = rest.partition(" ")
    row = Row(f"{place} {name}".rstrip(), call)
    items, last, is_joined = row.inputs, b"", False
    for double, single, word in TOKEN.findall(rest):
        if word == "=>":
            items = row.wanted
        elif word == "!":
            items = row.marks
        elif word == "+":
            is_joined = True
        elif word.startswith("*"):
            items[-1] += last * (int(word[1:]) - 1)
        elif word:
            items.append(word)
        else:
            last = decoded(double or single)
            if is_joined:
                items[-1] += last
            else:
                items.append(last)
            is_joined = False
    return row


def rows_in(path):
    """The rows of a file."""
    group, number, text = "", 0, ""
    with open(path, encoding="utf-8", newline="\n") as file:
        for line in [*file.read().split("\n"), ""]:
            if line.startswith(" "):
                text += line
                continue
            if text:
                number += 1
                yield row_of(f"{os.path.basename(path)}: {group}, row {number}", text)
            text = ""
            if line.startswith("== "):
                group, number = line[3:], 0
            elif line and not line.startswith(("#", "source: ")):
                text = line


def written(item):
    """A word as it is, or a text in quotes."""
    if isinstance(item, str):
        return item
    return f'"{"".join(map(SHOWN.__getitem__, item))}"'


def line_of(row):
    """A row without a name, on one line."""
    return " ".join([row.call, *map(written, row.inputs), "=>", *map(written, row.wanted)])
