"""Made values, types, dispositions, bodies, dates, ids and mails beside the second reading of RULES.md in Python.

Inputs are those of the suite and pieces of them, changed at random from a seed. The program mail_vectors replays them as
rows, and again with each allocation refused. The same rows are compared with the crate if --patched-oracle gives it.
"""

import os
import re
import subprocess

import pytest

from support import program

from by_rules import CALLS
from hostile import mails
from outlines import outlines
from replay import by_oracle
from suite import DATA, Row, line_of, rows_in

# how many rows each call has
COUNTS = {
    "get_value": 2000, "get_value_utf8": 2000, "parse_content_type": 2000, "parse_content_disposition": 2000, "body": 2000,
    "dateparse": 20_000, "msgidparse": 1000, "mail": 2000,
}
# what is put into texts of a call, beside pieces of other inputs
PIECES = {
    "get_value": [b"=?utf-8?Q?a?=", b"=?utf-8?B?w6k=?=", b"=?x?Q?b?=", b"=?", b"?=", b"\n ", b"\r\n\t", b" ", b"\t", b"(", b"\xe9",
                  "\u00e9".encode(), "\u00a0".encode(), b"?", b"_", b"=C3=A9", b"\r", b"\n", b'"', b",", b"=?utf-16?B?AGE=?="],
    "parse_content_type": [b";", b"=", b'"', b"\\", b"*", b"'", b" ", b"f", b"f*0", b"f*1*", b"utf-8''", b"%C3%A9", b"charset", b"*0",
                           b"+0", b"; f*0*=utf-8''a", b"; f*1=b", b"; t*=iso-8859-1'en'%E9", b"text/plain", "\u00e9".encode(), b"%"],
    "dateparse": [b" ", b":", b"Jan", b"february", b"1970", b"2000", b"70", b"69", b"+", b"-", b"31", b"29", b"0", b"255", b"256", b"EST",
                  b"+0100", b"-2400", b"Z", b"j", b"99", b"1969", b"Sun,", b"4294967295", b"\t", b"(PDT)", b"00"],
    "msgidparse": [b"<", b">", b" ", b"a@b", b",", "\u00a0".encode(), b"\n", b"<>", b"<a>"],
    "body": [b"aGk=", b"aGl=", b"=", b"=3D", b"=c3=a9", b"=\r\n", b" \n", b"\r\n", b"\t", b"\x0b", b"a", b"*", b"\xff\xfe", b"\xef\xbb\xbf",
             b"\xd8\x3d\xde\x00", b"\xc3\xa9", b"\x80", b"aGVsbG8gd29ybGQ"],
}
PIECES |= {"get_value_utf8": PIECES["get_value"], "parse_content_disposition": PIECES["parse_content_type"]}
IS_TEXT = {"parse_content_type", "parse_content_disposition", "dateparse", "msgidparse"}
KINDS = [b"base64", b"quoted-printable", b"7bit", b"8bit", b"binary", b"BASE64", b"none"]
LABELS = [b"utf-8", b"us-ascii", b"latin1", b"utf-16", b"utf-16be", b"koi8-r", b" UTF-8\t", b""]


def inputs_of(call):
    """The last inputs of a call in the suite."""
    names = sorted(name for name in os.listdir(DATA) if not name.startswith("long_"))
    return [row.inputs[-1] for name in names for row in rows_in(f"{DATA}/{name}") if row.call == call and row.inputs]


def changed(chance, pool, pieces):
    """An input of the pool after a few changes: a piece put in, a run cut out, doubled, or taken from another input."""
    data = chance.choice(pool)[:400]
    for _ in range(chance.randrange(4)):
        start = chance.randrange(len(data) + 1)
        end = min(len(data), start + chance.choice((0, 0, 1, 2, 8)))
        other = chance.choice(pool)[:400]
        at = chance.randrange(len(other) + 1)
        new = chance.choice((chance.choice(pieces), b"", data[start:end] * 2, other[at : at + 12]))
        data = data[:start] + new + data[end:]
    return data


def is_text(data):
    """Whether bytes are UTF-8."""
    try:
        return bool(data.decode()) or True
    except UnicodeDecodeError:
        return False


def made_inputs(call, chance, seed):
    """The inputs of the rows of a call."""
    if call == "mail":
        yield from ([data] for data in mails(COUNTS[call], seed) if len(data) < 10_000)
        return
    pool = inputs_of(call)
    for _ in range(COUNTS[call]):
        data = changed(chance, pool, PIECES[call])
        if call not in IS_TEXT or is_text(data):
            yield [chance.choice(KINDS), chance.choice(LABELS), data] if call == "body" else [data]


@pytest.fixture(params=CALLS)
def rows(request, chance, seed):
    """The rows of a call."""
    call = request.param
    found = [Row("", call, ["none" if it == b"none" else it for it in inputs]) for inputs in made_inputs(call, chance, seed)]
    for row in found:
        row.wanted = CALLS[call](*(b"" if it == "none" else it for it in row.inputs))
    assert len(found) > COUNTS[call] * 0.7
    return found


@pytest.fixture
def replays(refuse, tmp_path):
    """Replays rows, with ample memory and with each allocation refused."""
    def replay(lines):
        file, report = tmp_path / "rows.txt", tmp_path / "report"
        file.write_text("\n".join(["== Made rows", "source: tests/test_rules.py", "", *lines, ""]))
        for mode in (None, "at", "from"):
            report.write_bytes(b"")
            loaded = {"LD_PRELOAD": str(refuse), "REFUSE_REPORT": str(report)} | ({"REFUSE_ROWS": mode} if mode else {})
            command = [program("mail_vectors"), *(["again"] if mode else []), str(file)]
            ended = subprocess.run(command, capture_output=True, text=True, env={**os.environ, **loaded}, timeout=600)
            assert ended.stderr.splitlines()[-1] == f"{len(lines)} passed, 0 failed", ended.stdout[:5000]
            ran_out = re.search(r"^memory ran out (\d+) times$", ended.stderr, re.M)
            assert int(ran_out[1]) == int(report.read_text().split()[1])

    return replay


def test_rows(rows, replays):
    """Each row passes."""
    replays([line_of(row) for row in rows])


@pytest.mark.parametrize("texts", [False, True])
def test_outlines(texts, seed, replays):
    """Outlines are written, judged and read back as their second definition says."""
    replays([outline.row() for outline in outlines(seed, texts)])


def test_crate(rows, patched_oracle):
    """The crate returns the same, changed where the port differs."""
    for row, found in zip(rows, by_oracle(patched_oracle, rows)):
        assert found == row.wanted, row
