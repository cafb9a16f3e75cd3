"""What the tests share: the repository, its built programs and libraries, and made mails."""

import binascii
import functools
import os
import re
import shutil
import subprocess
import sys
import unicodedata
from pathlib import Path

import pytest

TOP = Path(__file__).resolve().parent.parent
SAMPLES = sorted((TOP / "samples").glob("*.eml"))
SUBCOMMANDS = ("check", "extract", "json", "show")
FROM = b"From a@b Thu Jan  1 00:00:00 1970\n"
DIRECTIONS = {"LRE", "RLE", "LRO", "RLO", "PDF", "LRI", "RLI", "FSI", "PDI"}
# the marks, which have the class of a letter or a number
MARKS = {"ARABIC LETTER MARK", "LEFT-TO-RIGHT MARK", "RIGHT-TO-LEFT MARK"}
sys.path[:0] = [str(TOP / "oracle"), str(TOP / "bench"), str(TOP / "tools")]


def is_hidden(character):
    """Whether a character is not shown as itself, by Python's table of Unicode."""
    return (
        unicodedata.category(character) in ("Cc", "Zl", "Zp")
        or unicodedata.bidirectional(character) in DIRECTIONS
        or unicodedata.name(character, "") in MARKS
    )


HIDDEN = [character for character in map(chr, range(0x3000)) if is_hidden(character)]


def missing(why):
    """Ends a test that lacks a need: it fails with the option --built, and is skipped otherwise."""
    (pytest.fail if os.environ.get("ROCKTRAY_BUILT") else pytest.skip)(why)


def text_of(path):
    """The text of a file of the repository."""
    return (TOP / path).read_text(encoding="utf-8")


VERSION, LOGIC = (re.search(rf'^pub const {name}: &str = "(.*)";$', text_of(f"crates/{path}"), re.M)[1] for name, path in
                  (("VERSION", "mail_version/src/lib.rt"), ("LOGIC", "rocktray/src/release.rt")))


@functools.cache
def program(name):
    """The path of the built program of a crate."""
    path = TOP / "crates" / name / "out" / name
    if not path.is_file():
        missing(f"{name} is not built: run tools/program.sh {name}")
    return str(path)


def command(name):
    """The command line that starts a subcommand of rocktray, or another program."""
    return [program("rocktray"), name] if name in SUBCOMMANDS else [program(name)]


def run(command, data=b"", **options):
    """Runs a command on the bytes, for a minute at most."""
    options = {"capture_output": True, "timeout": 60, **options}
    return subprocess.run([os.fspath(argument) for argument in command], input=data, **options)


def copied(target):
    """Copies the repository without what is built, and without definitions, proofs, edits and rows, which neither a script
    nor `rt try` needs; returns the target."""
    unread = shutil.ignore_patterns("out", ".git", "data", "specs", "proofs", "edits")
    return Path(shutil.copytree(TOP, target, ignore=unread, symlinks=True))


def compiled(source, target, *arguments):
    """Compiles a source of C into the target, and returns the target."""
    compiler = (os.environ.get("CC") or "cc").split()
    subprocess.run([*compiler, "-Wall", *arguments, "-o", str(target), str(source)], check=True)
    return target


def uuencoded(name, content, end=b"`\nend\n"):
    """A file as `uuencode` writes it, by Python's binascii."""
    rows = (binascii.b2a_uu(content[at : at + 45], backtick=True) for at in range(0, len(content), 45))
    return b"begin 644 " + name + b"\n" + b"".join(rows) + end


def multipart(boundary, *parts, kind=b"mixed"):
    """A mail with these parts."""
    head = b"Content-Type: multipart/%b; boundary=%b\n\n" % (kind, boundary)
    return head + b"".join(b"--%b\n%b\n" % (boundary, part) for part in parts) + b"--%b--\n" % boundary
