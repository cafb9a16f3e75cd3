"""Values as text, headers by name, dates, and what a user may change."""

import email
import email.policy
import pickle
from email import headerregistry

import by_email
import pytest

import rocktray

NAMES = ["Ana Lima", "Lima, Ana", "José", 'a "b" c', "back\\slash", "A. Lima", "boss@corp.com <boss@corp.com>,", "[x]", "a;b", "'a'", ""]


def test_addresses_as_text():
    for name in NAMES:
        address = rocktray.Address(name, "ana@example.org")
        assert str(address) == f"{address}" == str(headerregistry.Address(name, "ana", "example.org"))
    assert str(rocktray.Address("undisclosed", "")) == "undisclosed"
    assert repr(rocktray.Address("Ana", "a@b")) == "Address(name='Ana', address='a@b')"


def test_addresses_forge_no_line():
    mail = rocktray.parse(b"From: =?utf-8?q?a=0ABcc=3A_=1Bx=C2=85=E2=80=A8y?= <a@b>\n\n")
    assert str(mail.from_[0]) == '"a\ufffdBcc: \ufffdx\ufffd\ufffdy" <a@b>'


def test_headers_by_name(samples):
    for raw in samples.values():
        mail, message = rocktray.parse(raw), email.message_from_bytes(raw)
        for name in {*message.keys(), "Date", "X-None"}:
            wanted = [by_email.header_text(value) for key, value in message.raw_items() if key.lower() == name.lower()]
            assert mail[name] == mail[name.upper()] == (wanted[0] if wanted else None)
            assert (mail.get_all(name), mail.get_all(name, [])) == (wanted or None, wanted)
            assert (name in mail) == (name.lower() in mail) == (name in message)
    assert 5 not in mail


def test_names_that_are_no_text():
    mail = rocktray.parse(b"Subject: Hi\n\n")
    for call in (lambda: mail[0], lambda: list(mail), lambda: rocktray.read_date(None), lambda: rocktray.read_ids(b"<a@b>")):
        with pytest.raises(TypeError, match="is text, not"):
            call()


def test_dates_after_the_last_year():
    value = "1 Jan 99999 00:00 GMT"
    with pytest.raises(rocktray.Refused, match="the date is after the year 9999") as caught:
        rocktray.read_date(value)
    assert caught.value.number == 34
    mail = rocktray.parse(b"Date: " + value.encode() + b"\n\n")
    assert (mail.date, mail.date_error) == (None, "the date is after the year 9999")
    mail = rocktray.parse(b"Date: 31 Dec 9999 23:59:59 GMT\n\n")
    assert (mail.date.year, mail.date_error) == (9999, None)


def test_dates_in_the_zone_of_the_sender():
    for zone, offset in (("+0545", "+05:45"), ("-0030", "-00:30"), ("EST", "-05:00"), ("GMT", "+00:00"), ("-0000", "+00:00"), ("+9900", "+00:00")):
        read = rocktray.read_date(f"2 Jan 2000 00:00 {zone}")
        assert read.isoformat().endswith(offset) and read.tzinfo is not None, zone
    assert rocktray.read_date("2 Jan 2000 00:00 +0545").isoformat() == "2000-01-02T00:00:00+05:45"
    assert rocktray.read_date("31 Dec 9999 23:59:59 +0100").year == 9999


def test_what_a_user_changes():
    """Nothing that a mail returns is its own."""
    raw = b"Subject: Hi\nReferences: <a@b>\nIn-Reply-To: <a@b>\nContent-Type: text/plain; charset=utf-8\n\n"
    mail = rocktray.parse(raw)
    json = mail.json
    json["subject"] = "changed"
    json["parts"][0]["text"] = "changed"
    mail.references.append("c@d")
    mail.in_reply_to.append("c@d")
    part = next(mail.walk())
    part.params["name"] = "changed"
    part.children.append(part)
    assert (mail.subject, mail.text, mail.references, mail.in_reply_to) == ("Hi", "", ["a@b"], ["a@b"])
    assert (part.params, part.children) == ({"charset": "utf-8"}, [])
    assert mail.json["subject"] == "Hi"


def test_refused_mails_of_a_mailbox(tmp_path):
    """The loop of the page goes on, and an error names the mail."""
    line = b"From a Fri Jul  8 12:08:34 2011\n"
    (tmp_path / "box").write_bytes(line + b"Subject: 1\n\n" + line + b"A: 1\nB: 2\n\n" + line + b"Subject: 3\n\n")
    read, refused = [], []
    for mail in rocktray.open_mailbox(tmp_path / "box", limit=2):
        if mail.error:
            refused.append(mail)
            continue
        read.append(mail.subject)
    assert (read, len(refused)) == (["1", "3"], 1)
    with pytest.raises(rocktray.Refused, match=r"Too many.* \(the mail at 76 of its mailbox\)") as caught:
        refused[0].subject
    again = pickle.loads(pickle.dumps(caught.value))
    assert (again.place, again.number, str(again), again.text) == ((76, 86), 22, str(caught.value), refused[0].error)


def test_mails_too_deep_have_a_header():
    raw = b"Subject: deep\n" + b"".join(b"Content-Type: multipart/mixed; boundary=b%03d\n\n--b%03d\n" % (i, i) for i in range(101))
    mail = rocktray.Mail(raw)
    assert mail.error is None and mail["Subject"] == "deep"
