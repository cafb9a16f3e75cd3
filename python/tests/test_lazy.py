"""What is decoded when it is asked for: the same as the JSON has, once, and without the JSON."""

import io
import json
import pickle

import pytest

import rocktray
from rocktray import _engine

TEXT = b"Content-Type: text/plain\n\nsome text\n"
TEXT_FILES = b"Content-Type: message/rfc822\n\n\nHi\n\nbegin 644 caf\xe9.txt\n#0V%T\n`\nend\nbegin 644 ../b\n#0V%T\n"
# why a file in a text is damaged
UNENDED = "No line `end` follows the data of the uuencoded file"
FORWARDED = b"Content-Type: multipart/mixed; boundary=b\n\n--b\n" + TEXT + b"\n--b\nContent-Type: message/rfc822\n\n" + TEXT + b"\n--b--\n"


def pairs_of(elements):
    """The mailboxes of the JSON, those in groups too."""
    for element in elements:
        if "members" in element:
            yield from pairs_of(element["members"])
        else:
            yield (element.get("name") or "", element["address"]) if "address" in element else (element["unknown"], "")


def part_of_json(part):
    """The members of a part by the module, as the JSON has them."""
    found = {
        "path": part.path, "inside": part.inside, "type": part.content_type, "charset": part.charset, "params": part.params,
        "disposition": part.disposition, "file_name": part.file_name, "content_id": part.content_id,
        "attachment": part.is_attachment, "extracted": part.is_extracted, "encoding": part.encoding, "start": part.start,
        "end": part.end, "size": part.size, "refusal": part.refusal, "decoded_size": part.decoded_size, "sha256": None,
        "report": part.report and [[list(pair) for pair in block] for block in part.report],
        "text_files": [
            {
                "path": file.path, "file_name": file.file_name, "body_start": file.body_start, "body_end": file.body_end,
                "decoded_size": file.decoded_size, **({"error": UNENDED} if file.is_damaged else {}),
                "sha256": None,
            }
            for file in part.text_files
        ],
        "headers": [[header.name, header.value] for header in part.headers], "text": part.text, "html_text": None,
    }  # fmt: skip
    if part.is_damaged:
        with pytest.raises(rocktray.Refused) as caught:
            part.content
        found["error"] = caught.value.text
    if part.text is not None:
        found["text_charset"] = part.text_charset
        if part.is_damaged:
            found["damaged"] = True
    return found


def test_members_are_those_of_the_json(samples, hostile):
    made = 0
    for raw in [FORWARDED, TEXT_FILES, *samples.values(), *hostile]:
        mail = rocktray.Mail(raw)
        if mail.error:
            continue
        line = mail.json
        for name in ("from", "to", "cc", "bcc", "sender", "reply_to"):
            assert getattr(mail, name.replace("from", "from_")) == list(pairs_of(line[name])), raw
        assert (mail.subject, mail.in_reply_to, mail.references) == (line["subject"], line["in_reply_to"], line["references"])
        assert mail.message_id == (line["message_id"] or [None])[0]
        assert mail.date is None or round(mail.date.timestamp()) == line["date"]
        assert mail.date_error == line.get("date_error") or line["date"] is not None
        assert mail.is_date_zone_known == ("date_zone_unknown" not in line)
        assert (mail.bounced_id, [one._asdict() for one in mail.recipients]) == (line["bounced_id"], line["recipients"])
        assert [part_of_json(mail._part(index)) for index in range(len(mail._nodes))] == line["parts"], raw
        made += 1
    assert made > 1000


def test_nothing_but_the_json_is_json(samples, monkeypatch):
    """All else is decoded of the records."""

    def refuse(*_):
        raise AssertionError("the JSON was read")

    monkeypatch.setattr(rocktray._mail._engine, "json", refuse, raising=False)
    for raw in samples.values():
        mail = rocktray.parse(raw)
        found = [mail.subject, mail.from_, mail.date, mail.message_id, mail.references, mail.text, mail.html, mail.headers]
        for part in [*mail.walk(), *mail.files(), *mail.attachments()]:
            found += [part.content_type, part.params, part.file_name, part.safe_name, part.disposition, part.content_id]
            found += [part.headers, part.text, part.size, part.decoded_size, part.extracted_content(), part.children]
            found += [part.report, part.is_damaged and part._bad_group()]
        assert found


def test_what_is_decoded_is_remembered(samples):
    mail = rocktray.parse(samples["attachment"])
    assert mail.subject is mail.subject and mail.text is mail.text
    first, again = (next(mail.walk()) for _ in range(2))
    assert first.content_type is again.content_type
    assert mail.date is mail.date


def test_limit(tmp_path):
    raw = b"Content-Type: multipart/mixed; boundary=b\n\n" + b"--b\n\n" * 1000 + b"--b--\n"
    assert len(list(rocktray.parse(raw).walk())) == 1001
    assert len(list(rocktray.parse(raw, limit=1002).walk())) == 1001
    for call in (lambda: rocktray.parse(raw, limit=1001), lambda: rocktray.Mail(raw, limit=5).subject):
        with pytest.raises(rocktray.TooMany) as caught:
            call()
        assert caught.value.number == 22
    inside = rocktray.parse(b"Content-Type: message/rfc822\n\n" + raw, limit=100)
    with pytest.raises(rocktray.TooMany):
        inside.files()
    twice = rocktray.parse(
        b"Content-Type: multipart/mixed; boundary=m\n\n" + (b"--m\nContent-Type: message/rfc822\n\n" + raw) * 2 + b"--m--\n",
        limit=2000,
    )
    with pytest.raises(rocktray.TooMany):
        twice.files()
    box = io.BytesIO(b"From a Fri Jul  8 12:08:34 2011\n" + raw + b"\nFrom a Fri Jul  8 12:08:34 2011\nSubject: 2\n\n")
    assert [mail.error or mail.subject for mail in rocktray.open_mailbox(box, limit=10)] == [caught.value.text, "2"]
    (tmp_path / "cur").mkdir()
    (tmp_path / "cur" / "1").write_bytes(raw)
    assert [mail.error for mail in rocktray.open_maildir(tmp_path, limit=10)] == [caught.value.text]
    assert rocktray.Mail(raw, limit=5).error and pickle.loads(pickle.dumps(rocktray.Mail(raw, limit=5))).error


def test_many_parts_and_headers():
    """More than the buffers on the stack have."""
    head = b"".join(b"X-%d: %d\n" % (number, number) for number in range(5000))
    raw = head + b"Content-Type: multipart/mixed; boundary=b\n\n" + b"--b\nA: b\n\nx\n" * 500 + b"--b--\n"
    mail = rocktray.parse(raw)
    assert [(it.name, it.value) for it in mail.headers[:-1]] == [(f"X-{number}", str(number)) for number in range(5000)]
    assert [part.header("a") for part in mail.walk()] == [None] + ["b"] * 500
    assert (mail["x-4999"], mail.header("X-0", 1), mail.header("X-0", -1), mail["X-\u20ac"]) == ("4999", None, None, None)


def test_long_results():
    """Results that are longer than what is guessed, or than the buffers on the stack."""
    name = "é" * 3000
    raw = b"To: " + b", ".join(b"=?utf-8?q?n%d?= <%d@b>" % (number, number) for number in range(3000)) + b"\n"
    raw += b"Content-Type: x/y" + b"".join(b"; p%d=%d" % (number, number) for number in range(2000)) + b"\n"
    raw += b"Content-Disposition: inline; filename*=utf-8''" + b"%C3%A9" * 3000 + b"\nSubject: " + b"x" * 100_000 + b"\n\n"
    mail = rocktray.parse(raw)
    part = next(mail.walk())
    assert mail.to == [(f"n{number}", f"{number}@b") for number in range(3000)]
    assert part.params == {f"p{number}": str(number) for number in range(2000)}
    assert part.file_name == name and len(part.safe_name.encode()) == 254 and mail.subject == "x" * 100_000
    text = rocktray.parse(b"Content-Type: text/plain; charset=iso-8859-5\n\n" + b"\xd0" * 100_000)
    assert text.text == "а" * 100_000
    assert len(json.dumps(mail.json)) > 100_000


def test_safe_names():
    for name, wanted in (("../../etc/passwd", ".._.._etc_passwd"), ("..", "_"), ("résumé.pdf", "résumé.pdf"), ("a\tb", "a_b"), ("", "_")):
        assert _engine.safe_name(name) == wanted
    assert next(rocktray.parse(b"\n").walk()).safe_name is None
