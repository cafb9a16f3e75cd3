"""What parse and Mail take."""

import email
import io

import pytest
from conftest import TOP

import rocktray


class HasBuffer(bytearray):
    """A type of a user's own."""


@pytest.mark.parametrize("kind", [bytearray, memoryview, HasBuffer])
def test_mail_of_bytes_like_input(kind):
    mail = rocktray.Mail(kind(b"Subject: Hi\n\n"))
    assert mail.subject == mail.header("subject") == "Hi" and type(mail.raw) is bytes


def other_input():
    """Inputs that are not bytes, each with a part of what the error says."""
    path = TOP / "samples" / "attachment.eml"
    yield path, r"not PosixPath: use its read_bytes\(\), or open_mailbox"
    yield str(path), r"not str: read a file by pathlib.Path\(..\).read_bytes\(\), a mailbox by open_mailbox"
    yield email.message_from_bytes(path.read_bytes()), r"not Message: use its as_bytes\(\)"
    yield io.BytesIO(path.read_bytes()), r"not BytesIO: use its read\(\)"
    for value in (5, None, [83, 117], object):
        yield value, f"a mail is bytes, not {type(value).__name__}: read a file by"


def test_other_input():
    for value, wanted in other_input():
        for call in (rocktray.parse, rocktray.Mail):
            with pytest.raises(TypeError, match=wanted):
                call(value)
