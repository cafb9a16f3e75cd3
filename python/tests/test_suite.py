"""The rows of the suite whose calls the module has (crates/mail_vectors/data)."""

import re
from pathlib import Path

import by_lenient_rules
import hostile
import pytest
import suite

import rocktray

FOUR = re.compile(rb"utf-8|us-ascii|iso-8859-1|windows-1252|utf-16(le|be)?", re.IGNORECASE)
LABEL = re.compile(rb"=\?([^?*]*)")


def as_bytes(text):
    return text.encode()


def optional(text):
    return "none" if text is None else text.encode()


def refusal(error):
    return ["error", error.text.encode()]


def value(raw):
    return [as_bytes(rocktray.parse(b"X:" + raw).header("X"))]


def date(raw):
    return [str(round(rocktray.read_date(raw.decode()).timestamp()))]


def recipients(raw):
    return [optional(field) for one in rocktray.parse(raw).bounces() for field in one]


def findings(raw):
    return [it for one in rocktray.parse(raw).findings() for it in (one.name.encode(), str(one.start), str(one.end), one.path.encode())]


def attachments(raw):
    return [it for part in rocktray.parse(raw).attachments() for it in (part.path.encode(), optional(part.file_name), part.content)]


def entries(raw, tmp_path, format):
    """The offsets and the bytes of each mail of a mailbox."""
    path = tmp_path / "box"
    path.write_bytes(raw)
    return [(mail.place, mail.raw) for mail in rocktray.open_mailbox(path, format)]


# What the module returns for the inputs, by call.
CALLS = {
    "lenient_header_text": lambda row: value(row.inputs[0]),
    "date_of": lambda row: date(row.inputs[0]),
    "find_ids": lambda row: [as_bytes(it) for it in rocktray.read_ids(row.inputs[0].decode())],
    "find_any_ids": lambda row: [as_bytes(it) for it in rocktray.read_ids(row.inputs[0].decode(), needs_at=False)],
    "recipients": lambda row: recipients(row.inputs[0]),
    "findings": lambda row: findings(row.inputs[0]),
    "attachments_with": lambda row: attachments(row.inputs[0]),
}


def rows():
    paths = sorted(Path(suite.DATA).glob("*.txt"))
    return [row for path in paths if not path.name.startswith("long_") for row in suite.rows_in(path)]


ROWS = rows()


def is_of_a_table(row):
    """Whether an encoded word names a charset other than the four, which the module knows and these calls do not."""
    calls = ("get_value", "lenient_header_text", "mail")
    return row.call in calls and any(not FOUR.fullmatch(label) for label in LABEL.findall(row.inputs[0]))


@pytest.mark.parametrize("call", sorted(CALLS))
def test_rows(call):
    made = [row for row in ROWS if row.call == call and not is_of_a_table(row)]
    assert made
    for row in made:
        try:
            found = CALLS[call](row)
        except rocktray.Refused as error:
            found = refusal(error)
        except UnicodeDecodeError:
            continue  # texts of the module are UTF-8
        if call == "date_of" and row.wanted[0] == "error":
            assert found[0] == "error", row.place
        else:
            assert found == row.wanted, row.place


def test_values_of_the_port():
    """The values of its rows, beside a second reading of the rules by which the module reads them leniently."""
    made = 0
    for row in ROWS:
        if row.call != "get_value" or is_of_a_table(row):
            continue
        try:
            header = rocktray.parse(b"X:" + row.inputs[0]).headers[0]
        except rocktray.Refused:
            continue  # the text after the value is no header, and `parse` reads it too
        assert header.value == by_lenient_rules.header_text(header.raw), row.place
        made += 1
    assert made > 100


def headers_of(mail):
    """The headers of a mail and of its parts in reading order: name and text of each."""
    return [(header.name, header.value) for part in mail.walk() for header in part.headers]


def test_headers_of_mails():
    """The headers of the mail and of its parts, decoded: `mail` rows have them in reading order."""
    made = 0
    for row in ROWS:
        if row.call != "mail" or is_of_a_table(row):
            continue
        try:
            mail = rocktray.parse(row.inputs[0])
        except rocktray.Refused as error:
            assert refusal(error) == row.wanted, row.place
            continue
        if row.wanted[0] == "error":
            assert any(part.refusal for part in mail.walk()), row.place
            continue
        wanted = [(row.wanted[i + 1].decode(), row.wanted[i + 2].decode()) for i, it in enumerate(row.wanted) if it == "header"]
        assert headers_of(mail) == wanted == by_lenient_rules.headers_of(row.inputs[0]), row.place
        made += 1
    assert made > 15


def test_headers_of_made_mails():
    """Those of mails with faults on purpose, beside a second reading of the rules by which mail is read leniently."""
    made = kept = 0
    for raw in hostile.mails(2000, 1):
        if len(raw) < 10_000:
            mail = rocktray.parse(raw)
            assert headers_of(mail) == by_lenient_rules.headers_of(raw), raw
            made += 1
            kept += any(part.refusal for part in mail.walk())
    assert made > 1900 and kept > 50


def test_raw_headers():
    """The raw value of each header."""
    made = 0
    for row in ROWS:
        if row.call != "parse_headers":
            continue
        try:
            mail = rocktray.parse(row.inputs[0])
            headers = mail.headers
        except rocktray.Refused as error:
            assert refusal(error) == row.wanted or row.wanted[0] != "error", row.place
            continue
        if row.wanted[0] == "error":
            assert next(mail.walk()).refusal.encode() == row.wanted[1], row.place
            continue
        # the rows are read as the port does, where blanks before the colon belong to the name (RFC 5322, section 4.5)
        wanted = [it for name, raw in zip(row.wanted[1::2], row.wanted[2::2]) for it in (name.rstrip(b" \t"), raw)]
        assert [it for one in headers for it in (one.name.encode("latin-1"), one.raw)] == wanted, row.place
        made += 1
    assert made > 100


@pytest.mark.parametrize("call, format", [("read_mailbox", "mbox"), ("read_counted_mailbox", "mboxcl")])
def test_mailboxes(call, format, tmp_path):
    made = [row for row in ROWS if row.call == call]
    assert made
    for row in made:
        raw = row.inputs[0]
        given = entries(raw, tmp_path, format)
        front, pieces = row.wanted[0], row.wanted[1:]
        wanted, at = [], len(front)
        for separator, mail, ending in zip(pieces[::3], pieces[1::3], pieces[2::3]):
            start = at + len(separator)
            wanted.append(((start, start + len(mail)), mail))
            at = start + len(mail) + len(ending)
        assert given == wanted, row.place


def test_quoted_mailboxes(tmp_path):
    made = [row for row in ROWS if row.call == "unquoted"]
    assert made
    for row in made:
        path = tmp_path / "box"
        path.write_bytes(b"From a Fri Jul  8 12:08:34 2011\n" + row.inputs[0] + b"\n\nFrom b Fri Jul  8 12:08:34 2011\n")
        first = next(rocktray.open_mailbox(path, "mboxrd")).raw
        assert first in (row.wanted[0], row.wanted[0] + b"\n"), row.place
