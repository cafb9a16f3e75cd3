"""The suite and made mails in the Rust crate (--oracle), and the suite in Python's email and codecs."""

import pytest

from support import program, run

from hostile import mails
from replay import ORACLE, PYTHON, by_oracle, by_python, faults, rows_of
from suite import Row, line_of

# By header, the call that reads its value.
CALLS = {
    b"content-type": "parse_content_type",
    b"content-disposition": "parse_content_disposition",
    b"date": "dateparse",
    b"message-id": "msgidparse",
    b"references": "msgidparse",
    b"in-reply-to": "msgidparse",
}


def answered(oracle, rows):
    """The rows, with what the crate returns as the wanted items."""
    for row, items in zip(rows, by_oracle(oracle, rows)):
        row.wanted = items
    return rows


def calls_in(mail):
    """The calls on the values of a mail's headers."""
    items = mail.wanted
    for at, item in enumerate(items):
        if item == "header" and (call := CALLS.get(items[at + 1].lower())):
            yield Row("", call, [items[at + 2]])


@pytest.mark.quick
def test_rows_in_python():
    """Each row that Python can read agrees, or has a mark that says why not."""
    rows = rows_of(PYTHON, "/long_")
    assert len(rows) > 1000
    assert list(faults("python", rows, map(by_python, rows))) == []


def test_rows_in_the_crate(oracle):
    """Each row that the crate can read agrees, or has a mark that says why not."""
    rows = rows_of(ORACLE, "/long_")
    assert len(rows) > 2500
    assert list(faults("crate", rows, by_oracle(oracle, rows))) == []


def test_mails_in_the_crate(patched_oracle, seed, tmp_path):
    """What the changed crate reads of 20,000 made mails, and of the values in them, as rows of the suite."""
    read = answered(patched_oracle, [Row("", "mail", [data]) for data in mails(20_000, seed)])
    calls = answered(patched_oracle, [row for mail in read for row in calls_in(mail)])
    file = tmp_path / "mails.txt"
    file.write_text("\n".join(["== Made mails", *map(line_of, read + calls), ""]))
    ended = run([program("mail_vectors"), file], timeout=600)
    assert ended.stderr.splitlines()[-1] == b"%d passed, 0 failed" % (len(read) + len(calls)), ended.stdout[:5000]
