"""What the extension makes at once: the nodes of a mail, its date, its ids and its addresses."""

import datetime
import os
import re

import pytest

import rocktray
from rocktray import _engine
from rocktray._node import Node
from test_buffers import succeeds

IDS = {
    b"<a@b>": ["a@b"],
    b"<a@b>\r\n\t <c@d>\n <e@f> (g)": ["a@b", "c@d", "e@f"],
    b"<a\xe9@b> <c@d>": ["a\u00e9@b", "c@d"],
    "<a\u00e9@b> <c@d>".encode(): ["a\u00e9@b", "c@d"],
    b"<" + b"x" * 5000 + b"\xff@b>": ["x" * 5000 + "\u00ff@b"],
    b"none": [],
    b"": [],
}


def wanted_ids(raw, needs_at):
    """The ids in a raw value, unfolded by a regular expression."""
    try:
        text = raw.decode()
    except UnicodeDecodeError:
        text = raw.decode("latin-1")
    return rocktray.read_ids(re.sub(r"\r?\n[ \t]+", " ", text), needs_at)


def test_ids_of_headers(hostile):
    for raw, wanted in IDS.items():
        mail = rocktray.parse(b"Subject: x\nReferences: " + raw + b"\nReferences: <other@b>\n\n")
        assert mail.references == wanted and mail.in_reply_to == []
    for raw in hostile:
        mail = rocktray.Mail(raw)
        for header in [] if mail.error else mail.headers:
            first = next(it.raw for it in mail.headers if it.name.lower() == header.name.lower())
            for needs_at in (False, True):
                assert mail._reading.ids(0, header.name.encode("latin-1"), needs_at) == wanted_ids(first, needs_at), raw


def test_nodes_are_of_a_type():
    reading = rocktray.parse(b"Subject: x\n\n")._reading
    assert [type(node) for node in reading.nodes(Node, "", 0)] == [Node]
    assert [(node.path, node.inside, node.index) for node in reading.nodes(Node, "2.1", 5)] == [("2.1.1", "2.1", 5)]
    for type_ in (int, None):
        with pytest.raises(TypeError):
            reading.nodes(type_, "", 0)
        with pytest.raises(TypeError):
            reading.addresses(0, b"from", type_)
    for call in (Node, _engine.Node, lambda: reading.nodes(Node, None, 0), lambda: reading.nodes(Node, "")):
        with pytest.raises(TypeError):
            call()
    node = reading.nodes(Node, "", 0)[0]
    with pytest.raises(AttributeError):
        node.path = "1"


def test_addresses_of_a_type():
    mail = rocktray.parse(b"From: Ana <ana@example.org>\nFrom: \xff\n\n")
    assert mail._reading.addresses(0, b"from") == mail.from_ == [("Ana", "ana@example.org"), ("\u00ff", "")]
    assert [type(one) for one in mail.from_] == [rocktray.Address] * 2 and mail.from_[0].address == "ana@example.org"


def test_the_first_and_the_last_time():
    """Those of datetime, in UTC and in the zone of the date."""
    utc = datetime.timezone.utc
    assert rocktray.read_date("31 Dec 9999 23:59:59 +0000") == datetime.datetime.max.replace(microsecond=0, tzinfo=utc)
    late = rocktray.read_date("31 Dec 9999 22:59:59 -0100")
    assert late.utcoffset() == datetime.timedelta(hours=-1) and late.hour == 22
    for text in ("31 Dec 9999 23:59:59 -0001", "1 Jan 10000 00:00:00 +0100"):
        with pytest.raises(rocktray.Refused):
            rocktray.read_date(text)


def test_refused_memory():
    """Each allocation of Python's refused in turn: MemoryError, and nothing is lost or spoiled."""
    pytest.importorskip("_testcapi")
    succeeds(
        """
import _testcapi, rocktray, sys
from rocktray._node import Node
raw = open(sys.argv[1], "rb").read()
large = b"References: " + b" ".join(b"<%d@b>" % k for k in range(2000)) + b"\\n" + raw
def work():
    found = []
    for data in (raw, large):
        reading = rocktray._engine.read(data, 10**6)
        for node in reading.nodes(Node, "", 0):
            found += [node.path, node.parent, node.children, node.type, node.file_name, node.disposition, node.text, node.start]
        found += [node.path for node in reading.nodes(Node, "3.1", 7)]
        found += [reading.date(0), reading.ids(0, b"references", True), reading.addresses(0, b"from", rocktray.Address)]
    return found
wanted, refused = work(), 0
for start in range(1, 9000):
    _testcapi.set_nomemory(start, start + 1)
    try:
        assert work() == wanted
    except MemoryError:
        refused += 1
    else:
        break
    finally:
        _testcapi.remove_mem_hooks()
assert refused > 50 and start < 8999 and work() == wanted, (refused, start)
""",
        os.path.join(os.path.dirname(__file__), "..", "..", "samples", "attachment.eml"),
    )
