"""Parts: files, those of forwarded mails, the tree, sizes, ids and reports, as Python's email finds them."""

import base64
import binascii
import email
import pickle
import random

import by_email
import pytest

import rocktray

IMAGE = b"Content-Type: image/png\nContent-ID: <logo@example.org>\nContent-Transfer-Encoding: base64\n\niVBORw0KGgo=\n"
TEXT = b"Content-Type: text/plain\n\nsome text\n"


def multipart(boundary, *parts, kind=b"mixed"):
    head = b"Content-Type: multipart/%b; boundary=%b\n\n" % (kind, boundary)
    return head + b"".join(b"--%b\n%b\n" % (boundary, part) for part in parts) + b"--%b--\n" % boundary


def forwarding(mail, encoding=b"7bit"):
    body = base64.encodebytes(mail) if encoding == b"base64" else mail
    return b"Content-Type: message/rfc822\nContent-Transfer-Encoding: " + encoding + b"\n\n" + body


NESTED = multipart(
    b"a", TEXT, forwarding(multipart(b"b", TEXT, IMAGE, forwarding(multipart(b"c", IMAGE)), forwarding(IMAGE, b"base64")), b"base64"), IMAGE
)


@pytest.fixture(scope="module")
def mails(samples):
    """The samples, but for the one whose line `--bX` is no delimiter for Python, and mails inside mails."""
    made = [NESTED, forwarding(NESTED), forwarding(forwarding(IMAGE, b"base64"), b"base64"), b"", TEXT, IMAGE]
    return made + [raw for name, raw in samples.items() if name != "parts"]


def test_files(mails):
    """The paths and the bytes of what is saved, those of encoded mails too."""
    found = 0
    for raw in mails:
        wanted = list(by_email.saved_files(raw))
        files = rocktray.parse(raw).files()
        assert [(file.path, file.extracted_content()) for file in files] == wanted, raw
        assert all(file.is_extracted and file.content == file.extracted_content() for file in files)
        found += len(files)
    assert found > 20


def test_files_in_texts():
    """What binascii encoded into texts is found as the JSON says, in plain texts that are not files themselves."""
    contents = bytes(range(256)), b"Cat"
    blocks = [b"begin 644 %d.bin\n" % number for number in range(2)]
    for number, content in enumerate(contents):
        blocks[number] += b"".join(binascii.b2a_uu(content[at : at + 45]) for at in range(0, len(content), 45))
    text = b"\nHi\n\n" + blocks[0] + b"`\nend\nand\n" + blocks[1]
    raw = multipart(b"b", text, b"Content-Type: text/html\n" + text, forwarding(text, b"base64"), IMAGE)
    mail = rocktray.parse(raw)
    found = [(file.path, file.extracted_content(), file.is_damaged) for file in mail.files() if ".u" in file.path]
    assert found == [(f"{path}.u{number}", contents[number - 1], number == 2) for path in ("1", "3.1") for number in (1, 2)]
    assert [file.path for file in mail.files()] == ["1.u1", "1.u2", "3", "4", "3.1.u1", "3.1.u2"]
    whole, damaged = mail.files()[:2]
    body = next(part for part in mail.walk() if part.path == "1").content
    assert body[whole.body_start : whole.body_end] == blocks[0] + b"`\nend\n"
    assert (whole.file_name, whole.safe_name, whole.content, whole.parent.path) == ("0.bin", "0.bin", contents[0], "1")
    with pytest.raises(rocktray.Refused, match="No line `end` follows the data of the uuencoded file"):
        damaged.content
    assert pickle.loads(pickle.dumps(whole)).content == contents[0] and len({*mail.files(), *mail.files()}) == 6


def test_files_that_are_no_attachments():
    mail = rocktray.parse(b"Content-Type: application/pdf\n\nx")
    assert (mail.attachments(), [file.content for file in mail.files()]) == ([], [b"x"])
    undelimited = multipart(b"b")[: -len("--b--\n")] + b"all of this\n"
    part = rocktray.parse(undelimited).files()[0]
    assert part.extracted_content() == email.message_from_bytes(undelimited).get_payload(decode=True) == b"all of this\n"


def test_parts_of_encoded_mails(mails):
    """Their bytes, headers and contents."""
    found = 0
    for raw in mails:
        mail = rocktray.parse(raw)
        wanted = list(by_email.parts_anywhere(raw))
        given = [mail._part(index) for index in range(len(mail.json["parts"]))]
        assert [(part.inside, part.path) for part in given] == [(inside, path) for inside, path, _ in wanted]
        for part, (_, _, message) in zip(given, wanted):
            again = email.message_from_bytes(by_email.closed(part.raw))
            assert again.as_bytes() == message.as_bytes()
            raw_values = [value.encode("ascii", "surrogateescape") for _, value in message.raw_items()]
            assert [by_email.closed(header.raw) for header in part.headers] == raw_values
            if not part.children and not message.is_multipart():
                assert part.content == by_email.bytes_of(message)
            found += part.start is None
    assert found > 10


def descend(part):
    yield part
    for child in part.children:
        assert child.parent == part
        yield from descend(child)


def test_tree(mails):
    """The parts in the order of email's walk, which enters forwarded mails."""
    for raw in mails:
        if b"base64\n\n" in raw or b"delivery-status" in raw:
            continue
        root = next(rocktray.parse(raw).walk())
        assert root.parent is None and root.inside is None
        assert [part.content_type for part in descend(root)] == [part.get_content_type() for part in email.message_from_bytes(raw).walk()]
    root = next(rocktray.parse(NESTED).walk())
    assert [part.path for part in descend(root)] == ["", "1", "2", "2.0", "2.1", "2.2", "2.3", "2.3.0", "2.3.1", "2.4", "2.4.1", "3"]
    assert len(set(descend(root))) == 12


def test_tree_of_many_parts():
    mail = rocktray.parse(multipart(b"b", *[b"\n"] * 20_000))
    assert sum(1 for part in descend(next(mail.walk()))) == 20_001


def test_sizes(samples):
    for name, raw in samples.items():
        if name == "parts":
            continue
        leaves = {path: part for path, part in by_email.parts_of(email.message_from_bytes(raw)) if not part.is_multipart()}
        for part in rocktray.parse(raw).walk():
            assert raw[part.start : part.end] == part.raw
            if part.path in leaves:
                content = leaves[part.path].get_payload(decode=True)
                is_encoded = part.encoding in ("base64", "quoted-printable")
                assert part.size == len(leaves[part.path].get_payload() if is_encoded else content)
                assert part.decoded_size == len(content)


def test_content_ids(mails):
    for raw in mails:
        given = [(part.path, part.content_id) for part in rocktray.parse(raw).files()]
        wanted = [(path, by_email.content_id(part)) for _, path, part in by_email.parts_anywhere(raw) if by_email.is_saved(part)]
        assert given == wanted
    assert rocktray.parse(IMAGE).files()[0].content_id == "logo@example.org"


def test_ids_without_encoded_words():
    word = "=?utf-8?Q?a=40b?="
    mail = rocktray.parse(f"Message-ID: <{word}>\nIn-Reply-To: <{word}@c>\nReferences: <{word}>\n <d@e>\nContent-ID: <{word}>\n\n".encode())
    assert (mail.message_id, mail.in_reply_to, mail.references) == (word, [f"{word}@c"], ["d@e"])
    assert next(mail.walk()).content_id == word
    assert rocktray.read_ids(f"<{word}>", needs_at=False) == [word]


def test_headers_of_parts(mails):
    for raw in mails:
        for part, (_, message) in zip(rocktray.parse(raw).walk(), by_email.parts_of(email.message_from_bytes(raw))):
            for name in {*message.keys(), "Subject", "x-none"}:
                wanted = [by_email.header_text(value) for key, value in message.raw_items() if key.lower() == name.lower()]
                assert [part.header(name.upper(), number) for number in range(len(wanted) + 1)] == [*wanted, None]


DAMAGE = ["*", "=", "Zm=v", "\x80", "Z===", "_"]
IGNORED = ["*", "\x80", "_"]


def test_damaged_bodies():
    """What can be read, whatever its bytes are, and that `is_damaged` says so."""
    chance = random.Random(5)
    fronts = [bytes(range(256)), b"\xef\xbb\xbfa", b"\xff\xfe\x00", b"\xfe\xff", b"", b"%PDF-1.4\n\r\n\0"]
    fronts += [bytes(chance.randrange(256) for _ in range(3 * chance.randrange(40))) for _ in range(200)]
    for front in fronts:
        front = front[: len(front) // 3 * 3]
        body = base64.encodebytes(front).replace(b"\n", chance.choice([b"\n", b"\r\n", b" "]))
        damage = chance.choice(DAMAGE)
        body += damage.encode("latin-1") * 4 + base64.b64encode(b"after it")
        after = b"after it" if damage in IGNORED else b""
        for head in (b"Content-Type: application/pdf; name=a", b"Content-Type: text/plain; charset=utf-16", b"Content-Type: message/rfc822"):
            part = next(rocktray.parse(head + b"\nContent-Transfer-Encoding: base64\n\n" + body).walk())
            assert part.is_damaged and part.decoded_size is None
            assert part.extracted_content() == front + after, body
            with pytest.raises(rocktray.Refused, match=f"group {len(front) // 3} is no Base64 group"):
                part.content
    assert not any(part.is_damaged for part in rocktray.parse(NESTED).walk())


def test_uuencode():
    """The first uuencoded file of a body, as Python's email reads it, and what can be read of one that is cut off."""
    chance = random.Random(6)
    for size in [0, 1, 2, 3, 44, 45, 46, 1000]:
        front = bytes(chance.randrange(256) for _ in range(size))
        lines = [binascii.b2a_uu(front[at : at + 45], backtick=chance.random() < 0.5) for at in range(0, size, 45)]
        name = chance.choice([b"x-uuencode", b"X-UUE", b"uuencode", b"uue"])
        raw = b"Content-Type: image/png; name=a\nContent-Transfer-Encoding: " + name + b"\n\nHello\nbegin 644 a.png\n" + b"".join(lines)
        part = next(rocktray.parse(raw + b"`\nend\n").walk())
        assert part.encoding == "x-uuencode" and not part.is_damaged
        assert part.content == email.message_from_bytes(raw + b"`\nend\n").get_payload(decode=True) == front
        part = next(rocktray.parse(raw).walk())
        assert part.is_damaged and part.decoded_size is None and part.extracted_content() == front
        with pytest.raises(rocktray.Refused, match="The body has no whole uuencoded file"):
            part.content


def test_damaged_preamble():
    """The body of a part with parts is what is before them."""
    raw = multipart(b"b", TEXT).replace(b"\n\n", b"\nContent-Transfer-Encoding: base64\n\nZm9v*\n", 1)
    part = next(rocktray.parse(raw).walk())
    assert (part.is_damaged, part.extracted_content(), part.size) == (True, b"foo", 5)


REPORT = b"Content-Type: message/%b\n\nReporting-MTA: dns; mx\n\nFinal-Recipient: rfc822; a@b\nAction: failed\nStatus: 5.1.1 (no)\n"


@pytest.mark.parametrize("kind", [b"delivery-status", b"global-delivery-status", b"feedback-report", b"disposition-notification"])
def test_reports(kind, samples):
    report = REPORT % kind
    for raw in (report, multipart(b"b", TEXT, report, kind=b"report"), forwarding(multipart(b"b", report), b"base64"), samples["bounce"]):
        mail = rocktray.parse(raw)
        wanted = [by_email.report_of(part) for _, _, part in by_email.parts_anywhere(raw)]
        given = [mail._part(index).report for index in range(len(wanted))]
        assert given == [it and [[tuple(pair) for pair in block] for block in it] for it in wanted]
        assert [one._asdict() for one in mail.recipients] == by_email.mail_object(raw)["recipients"]
    assert rocktray.parse(TEXT).recipients == []


def test_recipients_of_a_header():
    mail = rocktray.parse(b"X-Failed-Recipients: a@b,\n c@d\n\n")
    assert [one.final_recipient for one in mail.recipients] == ["a@b", "c@d"]
    assert all(one[1:] == (None,) * 4 for one in mail.recipients)


def test_many_recipients(monkeypatch):
    """More than the stack has space for, with fields that are empty or missing; no JSON is read."""
    blocks = [b"Final-Recipient: rfc822; a%d@b\nStatus:\n%b\n" % (k, b"Diagnostic-Code: smtp; %b\n" % (b"no" * k) * (k % 2)) for k in range(300)]
    status = b"Content-Type: message/delivery-status\n\nReporting-MTA: dns; mx\n\n" + b"".join(blocks)
    raw = multipart(b"b", TEXT, status, kind=b"report")
    wanted = by_email.mail_object(raw)["recipients"]
    monkeypatch.setattr("json.loads", None)
    assert [one._asdict() for one in rocktray.parse(raw).recipients] == wanted and len(wanted) == 300


def test_findings():
    """What `rocktray check` finds, with the class and the sentence, and the refusal of a part."""
    raw = b"A: b\0\n\nHi\n"
    sentence = "The mail contains a NUL byte: readers in C may end the line or the mail there."
    assert rocktray.parse(raw).findings() == [rocktray.Finding("nul", "structure", "1", 4, 5, sentence)]
    assert rocktray.parse(TEXT).findings() == []
    many = multipart(b"b", *[b"Subject: %d\nSubject: caf\xc3\xa9\n\n\xc3\n" % k for k in range(300)])
    found = [(it.name, it.class_) for it in rocktray.parse(many).findings() if it.path == "300"]
    assert found == [("header-8bit", "name"), ("duplicate", "structure"), ("8bit-body", "note"), ("charset", "text")]
    with pytest.raises(rocktray.Refused, match="cannot start with a space"):
        rocktray.parse(multipart(b"b", b" A: b\n\nHi\n")).findings()


def test_bounced_id(samples):
    for raw in samples.values():
        assert rocktray.parse(raw).bounced_id == by_email.bounced_id(email.message_from_bytes(by_email.closed(raw)))
    assert rocktray.parse(samples["bounce"]).bounced_id == "lunch@example.org"
