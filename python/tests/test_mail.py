"""Mails and parts: what they have, pickling, threads, and hostile input."""

import base64
import datetime
import email
import email.policy
import pickle
import threading

import pytest
from conftest import TOP

import rocktray


def read_all(mail):
    """Everything that a mail has."""
    parts = []
    for part in mail.walk():
        try:
            content = part.content
        except rocktray.Refused as error:
            content = error.text
        parts.append(
            (part.path, part.content_type, part.params, part.charset, part.disposition, part.file_name, part.is_attachment)
            + (part.encoding, part.raw, content, part.text, part.text_charset, part.is_damaged)
            + tuple((header.name, header.value, header.raw) for header in part.headers)
        )
    return (mail.subject, mail.from_, mail.to, mail.cc, mail.reply_to, mail.date, mail.message_id, mail.references, parts) + (
        mail.text,
        mail.html,
        mail.text_or_html(),
        [one.raw for one in forwarded(mail)],
        mail.bounces(),
        len(mail.attachments()),
    )


def forwarded(mail):
    try:
        return mail.forwarded()
    except rocktray.Refused:
        return []


def test_version():
    source = (TOP / "crates" / "mail_version" / "src" / "lib.rt").read_text()
    assert f'pub const VERSION: &str = "{rocktray.__version__}";' in source.splitlines()


def test_sample(samples):
    mail = rocktray.parse(samples["attachment"])
    assert mail.subject == "The invoice"
    assert mail.from_ == [rocktray.Address("Ana Lima", "ana@example.org")]
    assert mail.date == datetime.datetime(2025, 3, 3, 14, 30, tzinfo=datetime.timezone.utc)
    assert [part.file_name for part in mail.attachments()] == ["Rechnung für März €-2025.pdf"]


def test_forged_sender():
    mail = rocktray.parse(b"From: =?utf-8?q?boss=40corp=2Ecom_=3Cboss=40corp=2Ecom=3E=2C?= <evil@x.org>\n\n")
    assert mail.from_ == [rocktray.Address("boss@corp.com <boss@corp.com>,", "evil@x.org")]


def test_addresses():
    mail = rocktray.parse(b"To: Team: a@b, \"C, D\" <c@d>;, e@f\nCc: nobody\nCc: g@h\n\n")
    assert mail.to == [("", "a@b"), ("C, D", "c@d"), ("", "e@f")]
    assert mail.cc == [("nobody", ""), ("", "g@h")]
    assert mail.bcc == mail.sender == mail.reply_to == []


@pytest.mark.parametrize(
    "value, text",
    [
        (b"Re:=?utf-8?Q?a?=: =?utf-8?Q?b?=", "Re:a: b"),
        (b"=?utf-8?Q?Gwena=C3?= =?utf-8?Q?=ABl?=", "Gwenaël"),
        (b"=?utf-8?B?w6k?=", "é"),
        (b"\x93hi\x94", "“hi”"),
        (b"a\r\n b", "a b"),
    ],
)
def test_header_texts(value, text):
    """What the tests of other readers expect of a subject."""
    mail = rocktray.parse(b"Subject: " + value + b"\r\n\r\n")
    assert (mail.subject, mail["subject"], mail.get_all("Subject"), mail.headers[0].value) == (text, text, [text], text)


def test_multipart_without_parts():
    """The body of a multipart without a boundary is a text, as Python's email has it."""
    raw = b"Content-Type: multipart/related\n\nHi"
    mail = rocktray.parse(raw)
    text = mail.to_email().get_payload()
    assert (mail.text, mail.text_or_html(), next(mail.walk()).text) == (text, text, text)


def test_text_of_html():
    """A mail without plain text is read by the text of its HTML; plain text comes first, and some mails have neither."""
    html = b"Content-Type: text/html; charset=iso-8859-1\n\n<p>caf\xe9 &amp;<br><a href='x'>b</a><script>no</script>"
    mail = rocktray.parse(html)
    assert (mail.text, mail.text_or_html(), mail.text_or_html(links=True)) == (None, "café &\nb", "café &\n[1]b\n\n[1] x")
    assert [(part.text_of_html(), part.text_of_html(links=True)) for part in mail.walk()] == [("café &\nb", "café &\n[1]b\n\n[1] x")]
    both = b"Content-Type: multipart/alternative; boundary=b\n\n--b\n" + html + b"\n--b\n\n<p>plain\n--b--\n"
    mail = rocktray.parse(both)
    assert mail.text_or_html() == "<p>plain" and [part.text_of_html() for part in mail.walk()] == [None, "café &\nb", None]
    empty = both.replace(b"\n<p>plain\n", b"\n\xc2\xa0 \n\n")
    assert (rocktray.parse(empty).text.strip(), rocktray.parse(empty).text_or_html()) == ("", "café &\nb")
    assert rocktray.parse(b"Content-Type: image/png\n\n<p>").text_or_html() is None
    with pytest.raises(rocktray.Refused):
        rocktray.Mail(b"A: b\n\n", limit=1).text_or_html()
    assert rocktray.Mail(b" x").text_or_html() == " x"


def test_forwarded():
    inside = b"Subject: inside\nContent-Type: multipart/mixed; boundary=i\n\n--i\n\none\n--i--\n"
    for encoding, body in ((b"7bit", inside), (b"base64", base64.encodebytes(inside))):
        head = b"Content-Type: multipart/mixed; boundary=b\n\n--b\nContent-Type: message/rfc822\nContent-Transfer-Encoding: "
        mail = rocktray.parse(head + encoding + b"\n\n" + body + b"\n--b\n\ntwo\n--b--\n")
        assert [part.path for part in mail.walk()] == ["", "1", "2"]
        assert [one.subject for one in mail.forwarded()] == ["inside"]
        assert (mail.text, mail.forwarded()[0].text) == ("two", "one")


def test_bounce(samples):
    assert [one.final_recipient for one in rocktray.parse(samples["bounce"]).bounces()] == ["full@example.net"]


@pytest.mark.parametrize(
    "charset, text",
    [
        ("gb18030", "你好 𠀀"),
        ("gbk", "发票"),
        ("gb2312", "你好"),
        ("big5", "發票"),
        ("euc-kr", "안녕하세요"),
        ("ks_c_5601-1987", "한글"),
        ("euc-jp", "請求書"),
        ("shift_jis", "請求書 ﾃｽﾄ"),
        ("iso-2022-jp", "請求書のテスト"),
    ],
)
def test_multi_byte_charsets(charset, text):
    label, raw = charset.encode(), text.encode(charset)
    word = b"=?" + label + b"?b?" + base64.b64encode(raw) + b"?="
    name = b"".join(b"%%%02X" % byte for byte in raw)
    head = b"Subject: " + word + b"\nFrom: " + word + b" <a@b>\nContent-Disposition: inline; filename*=" + label + b"''" + name
    mail = rocktray.parse(head + b"\nContent-Type: text/plain; charset=" + label + b"\n\n" + raw)
    assert (mail.subject, mail.header("Subject"), mail.from_) == (text, text, [(text, "a@b")])
    part = next(mail.walk())
    assert (mail.text, part.file_name, part.content, part.text_charset) == (text, text, raw, charset)


@pytest.mark.parametrize("kind", [bytes, bytearray, memoryview])
def test_bytes_like_input(kind):
    assert rocktray.parse(kind(b"Subject: Hi\n\n")).subject == "Hi"


def test_empty_mail():
    mail = rocktray.parse(b"")
    assert (mail.subject, mail.from_, mail.date, mail.message_id, mail.references) == (None, [], None, None, [])
    assert [part.content for part in mail.walk()] == [b""]


def test_refusals():
    with pytest.raises(rocktray.Refused, match="Too many") as caught:
        rocktray.parse(b"A: b\n\n", limit=1)
    assert caught.value.number == 22
    mail = rocktray.parse(b"Content-Type: application/x\nContent-Transfer-Encoding: base64\n\nZm9v*mFy")
    with pytest.raises(rocktray.Refused, match="Base64 decode error: group 1 is no Base64 group"):
        next(mail.walk()).content
    assert isinstance(caught.value, ValueError)


def test_kept_parts():
    """A part whose headers cannot be read, and one that is too deep, is plain text without headers."""
    mail = rocktray.parse(b"A: b\n\rx")
    part = next(mail.walk())
    assert "lone CR" in part.refusal and (part.content_type, part.text, part.headers) == ("text/plain", "A: b\n\rx", [])
    assert (mail.message_id, mail.references, mail.header("a"), rocktray.Mail(mail.raw).header("a")) == (None, [], None, None)
    deep = b"".join(b"Content-Type: multipart/mixed; boundary=b%03d\n\n--b%03d\n" % (i, i) for i in range(101))
    parts = list(rocktray.parse(deep + b"end").walk())
    assert [part.refusal for part in parts] == [None] * 101 + ["Recursion limit reached"] and parts[-1].text == "end"


def test_to_email(samples):
    for raw in samples.values():
        assert rocktray.parse(raw).to_email()["Subject"] == email.message_from_bytes(raw, policy=email.policy.default)["Subject"]


def test_dates_out_of_range_for_datetime():
    assert rocktray.parse(b"Date: 1 Jan 123456789 00:00 GMT\n\n").date is None
    mail = rocktray.parse(b"Date: 1 Foo 2020 00:00 GMT\n\n")
    assert (mail.date, mail.date_error) == (None, "no month")


def test_pickling(samples):
    for raw in samples.values():
        mail = rocktray.parse(raw)
        again = pickle.loads(pickle.dumps(mail))
        assert again == mail and read_all(again) == read_all(mail)
        for part in mail.walk():
            again = pickle.loads(pickle.dumps(part))
            assert again == part and again.raw == part.raw
            assert pickle.loads(pickle.dumps(part.headers)) == part.headers
    refused = pickle.loads(pickle.dumps(rocktray.Refused("why", 18)))
    assert (str(refused), refused.number) == ("why", 18)


def test_hostile_mails(hostile):
    kept = 0
    for raw in hostile:
        mail = rocktray.parse(raw)
        read_all(mail)
        kept += any(part.refusal for part in mail.walk())
    assert 0 < kept < len(hostile)


def test_threads(hostile):
    def results():
        found = []
        for raw in hostile[:300]:
            try:
                found.append(read_all(rocktray.parse(raw)))
            except rocktray.Refused as error:
                found.append(error.text)
        return found

    wanted, given = results(), {}
    threads = [threading.Thread(target=lambda i=i: given.__setitem__(i, results())) for i in range(8)]
    for thread in threads:
        thread.start()
    for thread in threads:
        thread.join()
    assert all(given[i] == wanted for i in range(8))


def resident():
    """The resident memory of the process, in bytes."""
    with open("/proc/self/statm") as file:
        return int(file.read().split()[1]) * 4096


def test_memory(samples):
    """Reading 100,000 mails leaks no memory."""
    mails = list(samples.values())

    def run(count):
        for i in range(count):
            mail = rocktray.parse(mails[i % len(mails)])
            for part in mail.walk():
                part.text

    run(5000)
    before = resident()
    run(100_000)
    assert resident() - before < 1 << 20


def test_mailbox_continues_after_a_refusal(tmp_path):
    path = tmp_path / "box"
    line = b"From a Fri Jul  8 12:08:34 2011\n"
    path.write_bytes(line + b"A: 1\nB: 2\n\n" + line + b"Subject: 2\n\n")
    with rocktray.open_mailbox(path, limit=2) as mails:
        first, second = mails
    assert first.error == "Too many parts and headers"
    with pytest.raises(rocktray.Refused):
        first.subject
    assert second.error is None and second.subject == "2"
    assert path.read_bytes()[slice(*second.place)] == second.raw


def test_empty_mailbox(tmp_path):
    (tmp_path / "box").write_bytes(b"")
    assert list(rocktray.open_mailbox(tmp_path / "box")) == []
    with pytest.raises(ValueError):
        rocktray.open_mailbox(tmp_path / "box", "mmdf")
    with pytest.raises(FileNotFoundError):
        rocktray.open_mailbox(tmp_path / "none")
