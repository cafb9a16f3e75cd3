"""The raw values of headers, which the module cuts itself."""

import pickle
import time

import rocktray
from rocktray import _library


def raw_values(part):
    """The raw values of a part's headers, each by a call of the library."""
    counts, found = {}, []
    for header in part.headers:
        key = header.name.lower() if header.name.isascii() else header.name
        found.append(_library.raw_header(part.raw, header.name, counts.get(key, 0)))
        counts[key] = counts.get(key, 0) + 1
    return found


ODD = [
    b"A: b", b"A", b"", b"\n", b"A\n", b"A: b\n", b"A:\n", b"A:\r\n", b"A: \r\n b\r\n\r\n", b"A\n\tb: c\n", b"A\r\nB: \n \n\t\n\n x",
    b"A:  b \r\r\n\r\n", b"A: b\n c\n\td\r\n e: f\nG: h\n \n", b":x\n:\n : y", b"A: b\n ", b"A: \n\n", b"A: b\rC: d\n", b"A: b\r",
    b"A : b\nA\t: c", b" \t: b\nA \t\n", b"A: b\n--c\nA: d", b"A: b\n \n--c\nA: d\n\n", b"--c\nA: b\r\n\t\r\n--c: d\n--\n e",
]  # fmt: skip


def test_raw_values_are_those_of_the_library(hostile, samples):
    made = 0
    for raw in [*ODD, *samples.values(), *hostile]:
        whole = b"Content-Type: multipart/mixed; boundary=b\n\n--b\n" + raw + b"\n--b\nA: b"
        for mail in (rocktray.Mail(raw), rocktray.Mail(whole)):
            if mail.error is None:
                for part in mail.walk():
                    found = [header.raw for header in part.headers]
                    assert found == raw_values(part), raw
                    made += len(found)
    assert made > 10_000


def test_blanks_before_a_colon():
    """RFC 5322, section 4.5"""
    mail = rocktray.parse(b"Subject : x\nDate \t: Mon, 1 Jan 2024 00:00:00 +0000\nContent-Type\t: text/html\n\n<p>y")
    assert [header.name for header in mail.headers] == ["Subject", "Date", "Content-Type"]
    assert (mail.subject, mail["subject"], mail.header("Subject ")) == ("x", "x", None)
    assert mail.date.timestamp() == 1704067200
    assert next(mail.walk()).content_type == "text/html"
    unread = rocktray.Mail(mail.raw)
    assert unread["subject"] == "x"


def test_raw_values_in_linear_time():
    mail = rocktray.parse(b"X-A: b\r\n" * 20_000 + b"\r\nx")
    before = time.process_time()
    assert [header.raw for header in mail.headers] == [b"b"] * 20_000
    assert mail.headers == rocktray.parse(mail.raw).headers
    assert time.process_time() - before < 3


def test_names_that_no_header_has():
    """They are no error, whether the mail is refused, not read yet, or read: no name has characters above U+00FF."""
    raw = b"A: b\nSubject: Hi\n\n"
    refused, unread, read = rocktray.Mail(raw, limit=1), rocktray.Mail(raw), rocktray.parse(raw)
    assert refused.error and read.subject
    for name in ("\ud800", "a\udcff", "\U0001f600", "\u20ac", "\0", "", ":", "a:"):
        for mail in (refused, unread, read):
            assert (mail.header(name), mail[name], mail.header(name, 7), name in mail) == (None, None, None, False), name
        assert (read.get_all(name), next(read.walk()).header(name), _library.raw_header(raw, name)) == (None, None, None), name


def test_pickled_headers_are_small():
    part = next(rocktray.parse(b"A: b\nC: d\n\n" + b"x" * 1_000_000).walk())
    assert len(pickle.dumps(part.headers)) < 1000
