"""Other mail programs beside `rocktray check`: on a mail without a finding no two readers differ in the tree of parts, the
decoded bytes, the file names, the subject and the sender, but for what docs/FINDINGS.md lists.

The mails are those given by --real and changes to them, to the samples and to mails of a grammar (oracle/mutated.py). The
readers are those of oracle/readers that are installed; tools/install_needs.sh --readers installs them.
"""

import re

import pytest

from support import missing, program, text_of

import mutated
from compare_real import mails_at
from other_readers import compilers, differences, read_here, version

# Faults of a reader that no name is meant to cover: which reader, and a pattern of the mails. The page lists them.
KNOWN = (
    ("python compat32", rb'(?im)^from:[^\r\n]*"[^"\r\n]*\r\n[ \t]'),
    ("mime4j", rb"(?m)^[!-9;-~]*\([!-9;-~]*\)[!-9;-~]*:"),
    ("mime-tools", rb"(?i)=\?gb18030\?"),
    ("email-mime", rb"(?i)=\?gb18030\?"),
    ("ruby-mail", rb"\n\r?\n[ \t\r\n]*[ \t][ \t\r\n]*(?:\n--|\Z)"),
)


def is_known(name, data):
    """Whether a fault of a reader that the page lists is why it may read a mail otherwise."""
    return any(reader == name and re.search(pattern, data) for reader, pattern in KNOWN)


@pytest.fixture(scope="module")
def mails(request, seed, tmp_path_factory):
    """A directory of the mails to compare."""
    directory = tmp_path_factory.mktemp("mails")
    given = request.config.getoption("--real")
    mutated.write(directory, request.config.getoption("--mails"), seed, given)
    for number, (_name, mail) in enumerate(mails_at(given)):
        (directory / f"real{number:06}.eml").write_bytes(mail)
    return directory


def test_readers(mails, tmp_path):
    """All readers agree on each mail without a finding, but where a known fault says why not."""
    commands = compilers(tmp_path) or missing("no other reader is installed: run tools/install_needs.sh --readers")
    here = read_here(program("rocktray"), str(mails))
    empty = {path: form for path, (form, names) in here.items() if not names}
    wrong = {path: found for path, found in differences(commands, empty).items() if found}
    unknown = []
    for path, found in wrong.items():
        with open(path, "rb") as file:
            data = file.read()
        if not all(is_known(name, data) for name, _field in found):
            unknown.append((path, found))
    print(*(f"{name} {version(name)}" for name in commands), sep=", ")
    print(f"{len(here)} mails, {len(empty)} without a finding; known faults: {len(wrong) - len(unknown)}")
    assert len(empty) > len(here) / 4
    assert not unknown, unknown[:10]


@pytest.mark.quick
def test_page():
    """The page lists the readers whose faults are known here."""
    section = text_of("docs/FINDINGS.md").split("\n## What was measured\n")[1].split("\n## ")[0]
    assert all(reader in section for reader, _pattern in KNOWN)
