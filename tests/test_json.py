"""The JSON of rocktray beside what Python's email package reads of the same mails.

The mails are those of samples/, and made ones: with control characters, with surrogates in UTF-8, with a refused body,
of 100 levels and of 101, of 100,000 parts, of parts at known offsets, and mailboxes, which are also read in parts.
Each line is one object that fits docs/mail_json.schema.json, without hidden characters, by Python's unicodedata.
"""
import base64
import email
import hashlib
import json
import os
import quopri
import random
import re
import select
import subprocess
import sys
import tempfile

import jsonschema
import pytest

from support import FROM, HIDDEN, SAMPLES, TOP, command, multipart, program, uuencoded

from by_email import all_parts, mail_object, parts_anywhere, report_of, saved_files

ORIGIN = ["schema", "file", "number", "start", "end"]
MEMBERS = ORIGIN + [
    "subject", "from", "to", "cc", "bcc", "reply_to", "sender", "raw", "date", "date_zone_unknown", "date_error",
    "message_id", "in_reply_to", "references", "bounced_id", "recipients", "parts", "forwarded",
    "findings", "findings_error",
]
PART_MEMBERS = [
    "path", "inside", "type", "charset", "params", "disposition", "file_name", "content_id", "attachment", "extracted",
    "encoding", "start", "end", "size", "refusal", "decoded_size", "error", "sha256", "report", "text_files", "headers",
    "text", "html_text", "text_charset", "damaged",
]
# texts in the charsets of several bytes
TEXTS = {
    "gb18030": "你好 \u20ac \U00020000", "GBK": "发票", "gb2312": "你好", "big5": "發票", "EUC-KR": "안녕하세요",
    "ks_c_5601-1987": "한글", "euc-jp": "請求書", "Shift_JIS": "請求書 \uff83\uff7d\uff84", "iso-2022-jp": "請求書のテスト",
}
OPTIONAL = {"date_zone_unknown", "date_error", "findings", "findings_error", "error", "text_charset", "damaged"}
# what no text escapes: the replacement character, four bytes of UTF-8, and neighbors of what is escaped
SHOWN = "a\ufffd\ufeff\U0001f600\U0010ffff/..z\xa0\u061b\u061d\u063f\u200d\u2010\u2027\u202f\u2065\u206a\u20ac"
MANY = "Too many parts and headers"
SPACE = "Header cannot start with a space; it is likely an overhanging line from a previous header"
HIDDEN_ONE = re.compile("[" + "".join(HIDDEN) + "]")

SCHEMA = jsonschema.Draft202012Validator(json.loads((TOP / "docs" / "mail_json.schema.json").read_text()))


def run(arguments, data=b"", **streams):
    """Runs the program on the bytes."""
    return subprocess.run([*command("json"), *arguments], input=data, capture_output=not streams, timeout=60, **streams)


def is_ordered(value, members):
    """Whether an object has these members in this order, all but the optional ones."""
    wanted = [name for name in members if name in value or name not in OPTIONAL]
    return list(value) == wanted


def lines(output, what):
    """The values of the lines of an output, each of which has to be one object without hidden characters."""
    values = []
    assert output == b"" or output.endswith(b"\n"), f"{what}: the last line has no end"
    for line in output.decode("utf-8").split("\n")[:-1]:
        assert not HIDDEN_ONE.search(line), f"{what}: a line has hidden characters"
        value = json.loads(line)
        fault = jsonschema.exceptions.best_match(SCHEMA.iter_errors(value))
        assert fault is None, f"{what}: a line is not as the schema says: {fault and fault.message!s:.300}"
        is_error = list(value) == ORIGIN + ["error"]
        assert is_error or is_ordered(value, MEMBERS), f"{what}: the members are {list(value)}"
        wrong = [list(part) for part in value.get("parts", []) if not is_ordered(part, PART_MEMBERS)]
        assert wrong == [], f"{what}: the members of parts"
        values.append(value)
    return values


def objects(arguments, data, status, what):
    """The values of the lines that a run writes, whose status has to be this one."""
    ended = run(arguments, data)
    assert ended.returncode == status, f"{what}: the status"
    assert ended.stderr == b"", f"{what}: standard error"
    return lines(ended.stdout, what)


def compare_part(found, part, wanted, data, what):
    """Compares the object of a part with what Python reads of it; of a forwarded mail Python decodes no body."""
    what = f"{what}, part {wanted['path']!r}"
    if part.is_multipart():
        del wanted["decoded_size"], wanted["text"]
        wanted.pop("text_charset", None)
    for name, value in wanted.items():
        assert found[name] == value, f"{what}: {name}"
    again = email.message_from_bytes(data[found["start"]:found["end"]])
    assert again.items() == part.items(), f"{what}: headers between start and end"
    assert again.as_bytes() == part.as_bytes(), f"{what}: bytes between start and end"


def compare(data, what):
    """Compares the object of a mail with what Python reads of it."""
    found = objects([], data, 0, what)
    assert len(found) == 1, f"{what}: the number of lines"
    found = found[0]
    assert [found[name] for name in ORIGIN] == [6, None, None, 0, len(data)], f"{what}: where it is from"
    wanted = mail_object(data)
    parts = [part for _inside, _path, part in all_parts(email.message_from_bytes(data))]
    wanted_parts = wanted.pop("parts")
    for name, value in wanted.items():
        assert found[name] == value, f"{what}: {name}"
    assert len(found["parts"]) == len(parts), f"{what}: the number of parts"
    for object_, part, wanted_part in zip(found["parts"], parts, wanted_parts):
        compare_part(object_, part, wanted_part, data, what)


def test_samples():
    """Compares the mails of samples/."""
    for name in sorted(os.listdir(os.path.join(TOP, "samples"))):
        with open(os.path.join(TOP, "samples", name), "rb") as file:
            compare(file.read(), name)
    with open(os.path.join(TOP, "samples", "parts.eml"), "rb") as file:
        parts = objects([], file.read(), 0, "parts.eml")[0]["parts"]
    assert [part["path"] for part in parts] == ["", "1"], "parts.eml, whose line `--bX` is no delimiter"


def test_characters():
    """Characters that move a terminal, and bytes that are no text."""
    forged = 'a\x00\x1b[31m\x7f\x85\u009b2J\u2028\u2029"\\\n{"subject":"forged"}'
    word = "=?utf-8?B?" + base64.b64encode(forged.encode()).decode() + "?="
    body = "é\r\n\t\x7f\x1b\x9b\u2029".encode() + b"\xed\xa0\x80|\xff|\xf0\x90\x80"
    data = b"Subject: " + word.encode() + b"\nContent-Type: text/plain; charset=utf-8\n\n" + body
    found = objects([], data, 0, "characters")
    assert len(found) == 1, "characters: the number of lines"
    assert found[0]["subject"] == forged, "characters: the subject"
    assert found[0]["parts"][0]["text"] == body.decode("utf-8", "replace"), "characters: the text"
    data = b"Subject: " + SHOWN.encode() + b'\nContent-Type: text/plain; charset=utf-8; name="' + SHOWN.encode() + b'"\n\n'
    found = objects([], data + SHOWN.encode(), 0, "characters that are shown")[0]
    assert (found["subject"], found["parts"][0]["file_name"]) == (SHOWN, SHOWN), "characters that are shown"
    data = b"Subject: a\nContent-Type: text/plain; charset=utf-8\n\n" + SHOWN.encode()
    assert objects([], data, 0, "a text of such")[0]["parts"][0]["text"] == SHOWN, "a text of such"
    turning = "".join(f"a{character}" for character in HIDDEN[65:]) + "b\u202e"
    ended = run([], data.replace(SHOWN.encode(), turning.encode()).replace(b"Subject: a", b"Subject: " + turning.encode()))
    assert [line["subject"] for line in lines(ended.stdout, "characters that turn text")] == [turning]
    assert ended.stdout.decode().count(json.dumps(turning)) == 3, "the subject, the header and the text, as Python escapes them"
    found = objects([], b"Sub\x9bject: \xe9\x9b\n\n", 0, "a key of high bytes")
    assert found[0]["parts"][0]["headers"][0][0] == "Sub\x9bject", "a key of high bytes"
    found = objects([], b"Content-Type: text/plain; charset=koi8-r\n\n\xc4\xc1", 0, "KOI8-R")
    assert found[0]["parts"][0]["text"] == b"\xc4\xc1".decode("koi8-r"), "KOI8-R"


# what the suites of other readers expect, GMime, VMime and mblaze among them; of a folding and a tab it is RFC 5322,
# section 2.2.3, and of an unknown charset docs/RULES.md
SUBJECTS = {
    b"=?utf-8?Q?a?=: =?utf-8?Q?b?=": "a: b",
    b"=?utf-8?B?w6k=?==?utf-8?B?w6k=?=": "éé",
    b"x=?utf-8?Q?a?=y": "xay",
    b"[=?utf-8?Q?a?=]": "[a]",
    b"Re:=?utf-8?Q?a?=": "Re:a",
    b"=?utf-8?B?w6k?=": "é",
    b"=?utf-8?B?YWI==?=": "ab",
    b"=?utf-8?Q?Gwena=C3?=\r\n =?utf-8?Q?=ABl?=": "Gwenaël",
    b"=?utf-8*en?Q?a?=": "a",
    b"\r\n a": "a",
    b"\x93hi\x94": "“hi”",
    b"a\r\n\tb": "a\tb",
    b"=?x-none?Q?a?= what?": "=?x-none?Q?a?= what?",
}


@pytest.mark.parametrize("value", SUBJECTS)
def test_subjects(value):
    """Subjects whose words are not written as the standards ask, as a member and in the list of headers."""
    found = objects([], b"Subject: " + value + b"\r\n\r\n", 0, repr(value))[0]
    assert found["subject"] == SUBJECTS[value]
    assert found["parts"][0]["headers"] == [["Subject", SUBJECTS[value]]]


def test_multiparts_without_parts():
    """The body of a multipart without a boundary is a text, as Python's email has it."""
    mail = b"Content-Type: multipart/alternative\n\nHi\n"
    for data in (mail, multipart(b"b", mail)):
        part = objects([], data, 0, repr(data))[0]["parts"][-1]
        assert (part["type"], part["text"].strip(), part["extracted"]) == ("multipart/alternative", "Hi", True)
    compare(mail, repr(mail))


def test_charsets():
    """Charsets of several bytes: in words, names of addresses and of files, parameters and bodies."""
    for label, text in TEXTS.items():
        raw = text.encode(label)
        word = f"=?{label}?B?{base64.b64encode(raw).decode()}?="
        escaped = "".join(f"%{byte:02X}" for byte in raw)
        head = f"Subject: Re: {word}\nFrom: {word} <ana@example.org>\nContent-Type: multipart/mixed; boundary=b\n\n--b\n"
        head += f"Content-Type: text/plain; charset={label}\nContent-Transfer-Encoding: 8bit\n\n"
        file = f"\n--b\nContent-Type: application/pdf; name*={label}''{escaped}\n"
        file += f"Content-Disposition: attachment; filename*={label}'en'{escaped}.pdf\n\n%PDF\n--b--\n"
        data = head.encode() + raw + file.encode()
        compare(data, label)
        found = objects([], data, 0, label)[0]
        assert (found["subject"], found["from"][0]["name"]) == (f"Re: {text}", text), label
        assert (found["parts"][1]["text"], found["parts"][2]["file_name"]) == (text, f"{text}.pdf"), label


def test_uuencode():
    """Bodies in uuencode, by each of its names."""
    body = b"\n\nHello,\n\nbegin 644 a.txt\n&8V%FPZD*\n`\nend\n\nBye\n"
    for name in (b"x-uuencode", b"X-UUencode", b"uuencode", b"x-uue", b"uue"):
        for head in (b"Content-Type: text/plain; charset=utf-8", b"Content-Type: image/png; name=a.png"):
            compare(head + b"\nContent-Transfer-Encoding: " + name + body, f"{name}")


# why a file in a text is damaged
UNENDED = "No line `end` follows the data of the uuencoded file"


def text_file(path, name, content, start, block, is_whole=True):
    """The object of a file in a text, by its path, its name, its content and where its block begins."""
    size = {"decoded_size": len(content)} if is_whole else {"decoded_size": None, "error": UNENDED}
    found = {"path": path, "file_name": name, "body_start": start, "body_end": start + len(block), **size}
    return {**found, "sha256": hashlib.sha256(content).hexdigest()}


def test_text_files():
    """The files that Python's binascii encoded into texts: in plain texts that are not files themselves, and only there."""
    first, second = bytes(range(256)), b"Cat"
    blocks = uuencoded(b"a.bin", first), uuencoded(b"caf\xe9 2.txt", second, b"")
    text = b"Hi,\n\n" + blocks[0] + b"\nbegin 644 here:\nno data\n\n" + blocks[1]
    found = objects(["--hash"], b"Subject: files\n\n" + text, 0, "two files")[0]["parts"][0]["text_files"]
    at = len(text) - len(blocks[1])
    assert found == [text_file("1.u1", "a.bin", first, 5, blocks[0]), text_file("1.u2", "café 2.txt", second, at, blocks[1], False)]
    inner = b"Content-Type: text/plain\n\n" + text
    parts = (
        b"Content-Type: text/html\n\n" + text, b"Content-Disposition: attachment\n\n" + text, b"Content-Type: text/csv\n\n" + text,
        b"Content-Transfer-Encoding: base64\n\n" + base64.encodebytes(text), b"Content-Type: message/rfc822\n\n" + inner,
    )
    mail = multipart(b"b", *parts)
    listed = [(part["path"], [file["path"] for file in part["text_files"]]) for part in objects([], mail, 0, "kinds of texts")[0]["parts"]]
    assert listed == [("", []), ("1", []), ("2", []), ("3", []), ("4", ["4.u1", "4.u2"]), ("5", []), ("5.1", ["5.1.u1", "5.1.u2"])]
    assert {file["sha256"] for part in objects([], mail, 0, "no hashes")[0]["parts"] for file in part["text_files"]} == {None}


def test_faults():
    """A refused body, dates and mails."""
    found = objects([], b"Content-Transfer-Encoding: base64\n\naGVs**8=", 0, "a refused body")[0]["parts"][0]
    assert (found["size"], found["decoded_size"], found["damaged"]) == (8, None, True), "a refused body"
    assert found["error"] == "Base64 decode error: group 1 is no Base64 group", "a refused body"
    found = objects([], b"Content-Transfer-Encoding: x-uuencode\n\nbegin 644 a\n#0V%T\n", 0, "uuencode that is cut off")[0]["parts"][0]
    assert (found["decoded_size"], found["text"], found["damaged"]) == (None, "Cat", True), "uuencode that is cut off"
    assert found["error"] == "The body has no whole uuencoded file", "uuencode that is cut off"
    found = objects([], b"Date: 32 x\n\n", 0, "a refused date")[0]
    assert (found["date"], found["date_error"]) == (None, "no day of the month"), "a refused date"
    found = objects([], b"Date: soon\n\n", 0, "a date without a number")[0]
    assert (found["date"], found["date_error"]) == (None, "no day of the month"), "a date without a number"
    found = objects([], b"Date: Sun, 29 Jul 2012 20:57 +0200\n\n", 0, "a date without seconds")[0]
    assert (found["date"], "date_error" in found) == (1343588220, False), "a date without seconds"
    found = objects([], b"Date: Sat, 12 Oct 2002 07:46:53 US/Central\n\n", 0, "a zone that is not known")[0]
    assert (found["date"], found["date_zone_unknown"]) == (1034408813, True), "a zone that is not known"
    found = objects([], b"", 0, "no bytes")[0]
    assert (found["subject"], found["date"], found["references"]) == (None, None, []), "no bytes"
    assert found["parts"][0]["headers"] == [], "no bytes"
    many = b"\n" + uuencoded(b"a", b"a") * 9 + uuencoded(b"last.exe", b"a")
    assert len(objects(["--max-items", "10"], many, 0, "as many blocks as the limit")[0]["parts"][0]["text_files"]) == 10
    found = objects(["--max-items", "9"], many, 3, "a file after the limit")
    assert [value["error"] for value in found] == [MANY], "a file after the limit"
    found = objects(["--max-items", "9"], b"Content-Type: message/rfc822\n\n" + many, 0, "a file after the limit in a mail inside")[0]
    assert [(value["path"], value["error"]) for value in found["forwarded"]] == [("1", MANY)], "a file after the limit in a mail inside"
    found = objects(["--max-items", "2"], b"A: b\nC: d\n\n", 3, "a refused mail")
    assert [(value["start"], value["end"], value["error"]) for value in found] == [(0, 11, MANY)], "a refused mail"
    found = objects([], b" x", 0, "a mail that is kept")[0]["parts"]
    kept = [(part["path"], part["type"], part["refusal"], part["headers"], part["text"], part["extracted"]) for part in found]
    assert kept == [("1", "text/plain", SPACE, [], " x", True)], "a mail that is kept"
    raw = b"From: =?utf-8?q?a=2C?=\n <a@b>\nTo: \xe9\nReply-To: c@d\nBcc: e@f\nSender: g@h\n\n"
    found = objects([], raw, 0, "raw values")[0]["raw"]
    wanted = {
        "from": "=?utf-8?q?a=2C?=\n <a@b>", "to": "\xe9", "cc": None, "bcc": "e@f", "reply_to": "c@d", "sender": "g@h",
    }
    assert (found, list(found)) == (wanted, list(wanted)), "raw values"


def test_addresses():
    """Addresses beside those that Python's email package reads, and what it reads as an address or not at all."""
    for value in (
        b"", b"ann@example.org", b"Ann <ann@example.org>, bob@example.org", b"\"Doe, Ann\" <ann@example.org>",
        b"=?utf-8?q?boss=40corp=2Ecom_=3Cboss=40corp=2Ecom=3E=2C?= <evil@x.org>",
        b"=?utf-8?q?Ren=C3=A9_M=2E?= <r@example.org>", b"Ren\xc3\xa9 <r@example.org>",
        b"undisclosed-recipients:;", b"A Group: Ed <ed@a.test>, joe@where.test, John <jdoe@one.test>;, x@y",
        b"Pete(A nice \\) chap) <pete(his account)@silly.test(his host)>", b"\"a b\"@example.org",
        b"\"Joe Q. Public\" <john.q.public@example.com>", b"<boss@nil.test>, \"Giant; \\\"Big\\\" Box\" <s@example.net>",
        b"ann@example.org (Ann), <bob@example.org> (=?utf-8?q?Bob_M=2E?=), A Group: joe@where.test (Joe);",
        b"=?utf-8?Q?=22Ann=2C_B=22?= <a@b>, 'Dan' <d@e>, O'Brien <o@b>, 'A Group': 'Ed' <ed@a.test>;",
    ):
        mail = b"".join(name + b": " + value + b"\n" for name in (b"From", b"To", b"CC", b"Bcc", b"Reply-To")) + b"\n"
        found, wanted = objects([], mail, 0, repr(value))[0], mail_object(mail)
        for name in ("from", "to", "cc", "bcc", "reply_to", "sender"):
            assert found[name] == wanted[name], f"{name} {value!r}"
    for value, wanted in (
        (b"a at b, c@d", [{"unknown": "a at b"}, {"name": None, "address": "c@d"}]),
        (b"all: \xe9, a@b;", [{"group": "all", "members": [{"unknown": " \xe9"}, {"name": None, "address": "a@b"}]}]),
        (b'"" <a@b>', [{"name": None, "address": "a@b"}]),
        (b"\"'Ann'\" <a@b>, '' <c@d>", [{"name": "Ann", "address": "a@b"}, {"name": None, "address": "c@d"}]),
        (b"boss@c <eve@d>", [{"name": "boss@c", "address": "eve@d"}]),
        (b"undisclosed-recipients:", [{"group": "undisclosed-recipients", "members": []}]),
        (b"all: Ann [x] <a@b>;", [{"group": "all", "members": [{"name": "Ann [x]", "address": "a@b"}]}]),
        (b"a@b\nTo: x:;, c@d", [{"name": None, "address": "a@b"}, {"group": "x", "members": []}, {"name": None, "address": "c@d"}]),
    ):
        assert objects([], b"To: " + value + b"\n\n", 0, repr(value))[0]["to"] == wanted, repr(value)


def test_forwarded():
    """Mails inside mails: their parts, their ranges, and those that are encoded or kept."""
    inner = b"Subject: in\nContent-Type: multipart/mixed; boundary=c\n\n--c\n\ntext\n--c\nContent-Disposition: attachment\n\nfile\n--c--\n"
    part = b"--b\nContent-Type: message/%b\nContent-Transfer-Encoding: %b\n\n%b\n"
    start = b"Content-Type: multipart/mixed; boundary=b\n\n"
    data = start + part % (b"rfc822", b"7bit", inner) + part % (b"global", b"base64", base64.b64encode(inner))
    data += part % (b"rfc822", b"7bit", b" x") + part % (b"rfc822", b"7bit", b"Subject: one\n\nbody") + b"--b--\n"
    found = objects([], FROM + data, 0, "mails inside")[0]
    at = [len(FROM) + data.index(mark) for mark in (b"Subject: in", b" x", b"Subject: one")]
    wanted = [("1", at[0], None), ("2", None, None), ("3", at[1], None), ("4", at[2], None)]
    assert [(mail["path"], mail["start"], mail["error"]) for mail in found["forwarded"]] == wanted, "mails inside"
    paths = ["", "1", "2", "3", "4", "1.0", "1.1", "1.2", "2.0", "2.1", "2.2", "3.1", "4.1"]
    assert [part_["path"] for part_ in found["parts"]] == paths, "parts of mails inside"
    inside = [None] * 5 + ["1"] * 3 + ["2"] * 3 + ["3", "4"]
    assert [part_["inside"] for part_ in found["parts"]] == inside, "what contains the mails inside"
    for path, text, object_ in zip(paths[5:], [None, "text", None, None, "text", None, " x", "body"], found["parts"][5:]):
        assert (object_["text"], object_["attachment"]) == (text, path in ("1.2", "2.2")), f"a part of a mail inside, {path}"
        assert (object_["start"] is None) == path.startswith("2"), f"the range of a part of a mail inside, {path}"
    whole = found["parts"][5]
    assert (FROM + data)[whole["start"]:whole["end"]] == inner, "the range of a mail inside"
    deep = b"Content-Type: message/rfc822\n\n" * 120 + b"Subject: end\n\n"
    found = objects([], deep, 0, "mails inside one another")[0]
    assert (len(found["forwarded"]), found["parts"][-1]["path"]) == (99, ".".join(["1"] * 100)), "mails inside one another"
    paths = [part_["path"] for part_ in found["parts"]]
    assert [part_["inside"] for part_ in found["parts"]] == [None, *paths[:-1]], "what contains mails inside one another"


def block(*lines_):
    """A block of a report, and the pairs in it."""
    return "".join(f"{line}\n" for line in lines_), [re.sub(r"\n\s*", " ", line).split(": ", 1) for line in lines_]


# after the examples of RFC 3464, appendix E.2, RFC 5965, appendix B.2, and RFC 8098, section 9
STATUS = [
    block("Reporting-MTA: dns; cs.utk.edu"),
    block(
        "Original-Recipient: rfc822;arathib@vnet.ibm.com", "Final-Recipient: rfc822;arathib@vnet.ibm.com", "Action: failed",
        "Status: 5.0.0 (permanent failure)",
        "Diagnostic-Code: smtp;  550 'arathib@vnet.IBM.COM' is not a\n registered gateway user", "Remote-MTA: dns; vnet.ibm.com",
    ),
    block(
        "Original-Recipient: rfc822;johnh@hpnjld.njd.hp.com", "Final-Recipient: rfc822;johnh@hpnjld.njd.hp.com",
        "Action: delayed", "Status: 4.0.0 (hpnjld.njd.jp.com: host name lookup failure)",
    ),
]
FEEDBACK = [
    block(
        "Feedback-Type: abuse", "User-Agent: SomeGenerator/1.0", "Version: 1", "Original-Mail-From: <somespammer@example.net>",
        "Original-Rcpt-To: <user@example.com>", "Received-Date: Thu, 8 Mar 2005 14:00:00 EDT", "Source-IP: 192.0.2.1",
    )
]
DISPOSITION = [
    block(
        "Reporting-UA: joes-pc.cs.example.com; Foomail 97.1", "Original-Recipient: rfc822;Joe_Recipient@example.com",
        "Final-Recipient: rfc822;Joe_Recipient@example.com", "Original-Message-ID: <199509192301.23456@example.org>",
        "Disposition: manual-action/MDN-sent-manually; displayed",
    )
]
RECIPIENTS = [
    ("arathib@vnet.ibm.com", "arathib@vnet.ibm.com", "failed", "5.0.0", "550 'arathib@vnet.IBM.COM' is not a registered gateway user"),
    ("johnh@hpnjld.njd.hp.com", "johnh@hpnjld.njd.hp.com", "delayed", "4.0.0", None),
]


def report_part(kind, blocks, encoding=b"7bit", end=b"\n"):
    """A part of this type that has these blocks."""
    body = b"\n".join(text.encode() for text, _pairs in blocks).replace(b"\n", end)
    body = {b"base64": base64.encodebytes, b"quoted-printable": quopri.encodestring}.get(encoding, bytes)(body)
    return b"Content-Type: message/%b\nContent-Transfer-Encoding: %b\n\n%b" % (kind, encoding, body)


def recipients(found):
    """The values of the recipients of a mail."""
    return [tuple(one.values()) for one in found["recipients"]]


def reports(found):
    """The reports among the parts of a mail."""
    return [part["report"] for part in found["parts"] if part["report"] is not None]


def test_reports():
    """Reports of each kind, in any encoding and anywhere in a mail."""
    for kind, blocks, wanted in (
        (b"delivery-status", STATUS, RECIPIENTS), (b"global-delivery-status", STATUS, RECIPIENTS),
        (b"feedback-report", FEEDBACK, []), (b"disposition-notification", DISPOSITION, []),
        (b"delivery-status", DISPOSITION, [("Joe_Recipient@example.com",) * 2 + (None,) * 3]),
    ):
        pairs = [pairs_ for _text, pairs_ in blocks]
        for encoding in (b"7bit", b"base64", b"quoted-printable"):
            for end in (b"\n", b"\r\n"):
                part = report_part(kind, blocks, encoding, end)
                deep = multipart(b"o", b"\nfirst\n", multipart(b"i", part))
                forwarded = b"Content-Type: message/rfc822\n\n" + multipart(b"f", part, kind=b"report")
                encoded = b"Content-Type: message/rfc822\nContent-Transfer-Encoding: base64\n\n" + base64.encodebytes(deep)
                own = [part, multipart(b"b", b"\nfirst\n", part, kind=b"report"), deep]
                for data in (*own, forwarded, multipart(b"b", encoded)):
                    found = objects([], data, 0, repr(data))[0]
                    assert (reports(found), recipients(found)) == ([pairs], wanted if data in own else []), repr(data)
                    anywhere = [report_of(part_) for _inside, _path, part_ in parts_anywhere(data)]
                    assert [part_["report"] for part_ in found["parts"]] == anywhere, repr(data)
                compare(multipart(b"b", b"\nfirst\n", part, kind=b"report"), f"{kind} in {encoding}")
    two = multipart(b"b", report_part(b"delivery-status", STATUS), report_part(b"delivery-status", STATUS[::-1]))
    assert recipients(objects([], two, 0, "two reports")[0]) == [*RECIPIENTS, *RECIPIENTS[::-1]], "two reports"
    for body, wanted in (
        (b"", []), (b"\n\r\n\n", []), (b"\n\nA: b\n\n\n\nC:d", [[["A", "b"]], [["C", "d"]]]),
        (b"A: b\n \nC: d\n", [[["A", "b"], ["C", "d"]]]), (b"A:  =?utf-8?q?=C3=A9?=  \nA: \xc3\xa9\n", [[["A", "é"], ["A", "é"]]]),
        (b"A: b\n\n C: d\n\nE: f", [[["A", "b"]], [], [["E", "f"]]]),
    ):
        found = objects([], b"Content-Type: message/feedback-report\n\n" + body, 0, repr(body))[0]
        assert reports(found) == [wanted], repr(body)
    for part in (b"Content-Type: text/plain\n\n" + STATUS[1][0].encode(), report_part(b"tracking-status", STATUS)):
        found = objects([], part, 0, repr(part))[0]
        assert (reports(found), recipients(found)) == ([], []), repr(part)


def test_failed_recipients():
    """The header X-Failed-Recipients, whose recipients follow those of reports."""
    head = b"X-Failed-Recipients: a@b,\n  c@d ,, e f\nx-failed-recipients: g@h\nX-Failed-Recipients: ,\n"
    named = [(address, None, None, None, None) for address in ("a@b", "c@d", "e f", "g@h")]
    for data, wanted in (
        (head + b"\n", named), (b"X-Failed-Recipients:\n\n", []),
        (head + multipart(b"b", report_part(b"delivery-status", STATUS)), [*RECIPIENTS, *named]),
        (multipart(b"b", head + b"\n"), []),
    ):
        found = objects([], data, 0, repr(data))[0]
        assert recipients(found) == wanted, repr(data)
        assert found["recipients"] == mail_object(data)["recipients"], repr(data)


def test_bounced_id():
    """The id of the mail that a delivery report returns."""
    returned = b"Content-Type: %b\n\nSubject: a\nMessage-ID: <1@a> <2@a>\n\n"
    other = b"Content-Type: message/rfc822\n\nMessage-ID: <3@a>\n\n"
    for data, wanted in (
        *((multipart(b"b", b"\nx\n", returned % kind, other, kind=b"report"), "1@a") for kind in (
            b"message/rfc822", b"text/rfc822-headers", b"message/global", b"message/global-headers")),
        (multipart(b"b", returned % b"text/plain", other, kind=b"report"), "3@a"),
        (multipart(b"b", b"Content-Type: message/rfc822\n\nSubject: a\n\n", other, kind=b"report"), None),
        (multipart(b"b", other, kind=b"mixed"), None), (other, None), (multipart(b"b", multipart(b"i", other), kind=b"report"), None),
    ):
        assert objects([], data, 0, repr(data))[0]["bounced_id"] == wanted == mail_object(data)["bounced_id"], repr(data)


def test_content_ids():
    """The id of a part."""
    for head, wanted in (
        (b"", None), (b"Content-ID: <a@b>", "a@b"), (b"content-id: (x) <one> <a@b>", "one"), (b"Content-ID: a@b", "a@b"),
        (b"Content-ID: a b\nContent-ID: <a@b>", None), (b"Content-ID: ab", None), (b"Content-ID:\n <a@b>", "a@b"), (b"Content-ID: <>", None),
        (b"Content-ID: <=?utf-8?Q?a=40b?=>", "=?utf-8?Q?a=40b?="),
    ):
        assert objects([], head + b"\n\n", 0, repr(head))[0]["parts"][0]["content_id"] == wanted, repr(head)


def test_ids_without_brackets():
    """A value that is one id as a whole, without brackets."""
    data = b"Message-ID: 1@a\nReferences: 2@b (x)\nIn-Reply-To: 3@c 4@d\n\n"
    line = objects([], data, 0, repr(data))[0]
    found = [line[name] for name in ("message_id", "references", "in_reply_to")]
    assert found == [["1@a"], ["2@b"], []] == [mail_object(data)[name] for name in ("message_id", "references", "in_reply_to")]


def test_ids_without_encoded_words():
    """An id is the raw text between the brackets: no encoded word occurs there (RFC 2047, section 5)."""
    word = b"=?utf-8?Q?a=40b?="
    data = b"Message-ID: <%b>\nIn-Reply-To: <%b@c>\nReferences: <%b> <d@e>\n <%b@c>\n\n" % (word, word, word, word)
    line = objects([], data, 0, repr(data))[0]
    found = [line[name] for name in ("message_id", "in_reply_to", "references")]
    assert found == [[word.decode()], [f"{word.decode()}@c"], ["d@e", f"{word.decode()}@c"]]


def test_extracted():
    """What is saved, and has a hash: by its headers, and as Python finds it in the samples and in a mail inside a mail."""
    for head, wanted in (
        (b"", False), (b"Content-Type: text", False), (b"Content-Type: text/html", False), (b"Content-Type: Text/Plain; charset=x", False),
        (b"Content-Type: text/html; name=a", True), (b"Content-Disposition: attachment", True), (b"Content-Disposition: inline", False),
        (b"Content-Disposition: inline; filename=a", True), (b"Content-Type: text/calendar", True), (b"Content-Type: image/png", True),
        (b"Content-Type: message/rfc822", True), (b"Content-Type: message/delivery-status", True), (b"Content-Type: x", False),
        (b"Content-Type: multipart/mixed; boundary=b", True), (b"Content-Type: multipart/mixed", True),
    ):
        part = objects([], head + b"\n\nx\n", 0, repr(head))[0]["parts"][0]
        assert part["extracted"] == wanted, repr(head)
    samples = [path.read_bytes() for path in SAMPLES]
    samples.append(multipart(b"whole", *(b"Content-Type: message/rfc822\n\n" + data for data in samples)))
    for data in samples:
        found = objects(["--hash"], data, 0, repr(data))[0]["parts"]
        wanted = {path: hashlib.sha256(body).hexdigest() for path, body in saved_files(data)}
        assert {part["path"]: part["sha256"] for part in found if part["extracted"]} == wanted, repr(data)
        assert all(part["sha256"] is None for part in found if not part["extracted"]), repr(data)


def without_text(line):
    """A line without what needs a body."""
    value = json.loads(line)
    if "parts" in value:
        value["recipients"] = None
        for part in value["parts"]:
            part.update(text=None, html_text=None, decoded_size=None, sha256=None, report=None, text_files=None)
            for name in ("error", "text_charset", "damaged"):
                part.pop(name, None)
    return list(value.items())


def test_no_text(hostile):
    """With --no-text a line is the whole line, but for what needs a body."""
    head = b"Content-Type: multipart/mixed; boundary=b\n\n--b\n"
    damaged = head + b"Content-Transfer-Encoding: base64\n\nZm9v*\n--b\n" + report_part(b"delivery-status", STATUS) + b"--b--\n"
    inside = b"Content-Type: message/rfc822\nContent-Transfer-Encoding: base64\n\n" + base64.encodebytes(damaged)
    for data, status in (
        (b"", 0), (b" x", 0), (damaged, 0), (inside, 0), (b"X-Failed-Recipients: a@b\n\n", 0),
        (FROM + damaged + b"\n" + FROM + b" x\n\n" + FROM + inside, 0),
    ):
        found = [list(value.items()) for value in objects(["--no-text"], data, status, repr(data))]
        assert found == [without_text(line) for line in run([], data).stdout.splitlines()], repr(data)
    paths = [*SAMPLES, *hostile[:4000]]
    for at in range(0, len(paths), 500):
        batch = paths[at : at + 500]
        found, whole = run(["--no-text", "--mail", *batch]), run(["--mail", *batch])
        assert (found.returncode, found.stderr) == (whole.returncode, whole.stderr)
        values = [list(value.items()) for value in lines(found.stdout, "--no-text")]
        assert values == [without_text(line) for line in whole.stdout.splitlines()]


def test_options():
    """Hashes, and paragraphs that flow."""
    part = b"--b\nContent-Disposition: attachment\nContent-Transfer-Encoding: base64\n\n%b\n"
    data = b"Content-Type: multipart/mixed; boundary=b\n\n--b\n\none\n"
    data += part % base64.b64encode(b"one") + part % b"b25l**" + b"--b--\n"
    found = [part_["sha256"] for part_ in objects(["--hash"], data, 0, "--hash")[0]["parts"]]
    hash_ = hashlib.sha256(b"one").hexdigest()
    assert found == [None, None, hash_, hash_], "--hash"
    assert [part_["sha256"] for part_ in objects([], data, 0, "no --hash")[0]["parts"]] == [None] * 4, "no --hash"
    flowed = b"Content-Type: text/plain; format=flowed\n\none \ntwo\n> a \n> b\n\n-- \nme\n"
    assert objects(["--flowed"], flowed, 0, "--flowed")[0]["parts"][0]["text"] == "one two\n> a b\n\n-- \nme\n", "--flowed"
    assert objects([], flowed, 0, "no --flowed")[0]["parts"][0]["text"] == "one \ntwo\n> a \n> b\n\n-- \nme\n", "no --flowed"
    plain = flowed.replace(b"; format=flowed", b"")
    for data in (plain, b"Content-Transfer-Encoding: base64\n" + plain):
        assert objects(["--flowed"], data, 0, "--flowed") == objects([], data, 0, "no --flowed"), f"--flowed {data!r}"


def test_findings():
    """With --check a line has findings, or why there are none, and is otherwise the same, also without bodies."""
    for data, wanted in ((b"A: b\n\nHi\n", ([], None)), (b"A: b\0\n\nHi\n", (["nul"], None)), (b" x", (None, SPACE))):
        for options in (["--mail"], ["--mail", "--no-text"]):
            line, plain = objects([*options, "--check"], data, 0, repr(data))[0], objects(options, data, 0, repr(data))[0]
            found = line.pop("findings")
            assert (found if not found else [it["name"] for it in found], line.pop("findings_error", None)) == wanted, repr(data)
            assert line == plain, repr(data)


# HTML in a charset, and what a reader of the HTML Standard shows of it: tags, comments and scripts are no text
HTML_TEXTS = [
    ("us-ascii", "caf&eacute; <b class='a>b'>&amp;</b> t&#101;a<!-- no --><script>if (a<b) no()</script>", "caf\xe9 & tea"),
    ("iso-8859-1", "\xe4<style>p{}</style> 2 &lt; 3", "\xe4 2 < 3"), ("koi8-r", "\u0414<i>\u0430</i>&#x2028;", "\u0414\u0430\u2028"),
    ("utf-8", "a &amp;lt; b", "a &lt; b"), ("utf-8", "", ""), ("utf-8", "<!-- only a comment -->", ""),
]


def test_html_text():
    """With --html-text a text that is HTML has its own text beside it, and nothing else changes."""
    wanted, pieces = [None, None], [b"\nplain"]
    for at, (charset, text, shown) in enumerate(HTML_TEXTS):
        head = f"Content-Type: TEXT/HTML; charset={charset}\n".encode()
        body = text.encode(charset)
        pieces.append(head + (b"Content-Transfer-Encoding: base64\n\n" + base64.encodebytes(body) if at % 2 else b"\n" + body))
        wanted.append(shown)
    html = b"Content-Type: text/html%b\n\n<p>x</p>"
    attached = html % b"\nContent-Disposition: attachment"
    pieces += [attached, b"Content-Type: text/htmlx\n\n<p>x</p>", b"Content-Type: message/rfc822\n\n" + html % b"; format=flowed"]
    wanted += [None, None, None, "x"]
    data = multipart(b"b", *pieces)
    found = objects(["--html-text"], data, 0, "--html-text")[0]["parts"]
    assert [part["html_text"] for part in found] == wanted, "--html-text"
    plain = objects([], data, 0, "no --html-text")[0]["parts"]
    assert plain == [{**part, "html_text": None} for part in found], "no --html-text"
    assert objects(["--html-text", "--no-text"], data, 0, "both") == objects(["--no-text"], data, 0, "--no-text"), "--no-text"
    for options in (["--mail"], ["--flowed"]):
        assert objects(["--html-text", *options], data, 0, repr(options))[0]["parts"] == found, f"--html-text {options}"
    box = FROM + data + b"\n" + FROM + html % b"" + b"\n"
    found = [part["html_text"] for line in objects(["--mbox", "--html-text"], box, 0, "a mailbox") for part in line["parts"]]
    assert found == [*wanted, "x"], "a mailbox"


def nested(levels):
    """A mail with parts down to that level."""
    start = b"Content-Type: multipart/mixed; boundary=b%03d\n\n--b%03d\n"
    return b"".join(start % (level, level) for level in range(levels)) + b"\nend"


def test_levels():
    """Parts inside parts."""
    found = objects([], nested(100), 0, "100 levels")[0]["parts"]
    assert len(found) == 101, "100 levels"
    assert (found[-1]["path"], found[-1]["text"]) == (".".join(["1"] * 100), "end"), "100 levels"
    found = objects([], nested(101), 0, "101 levels")[0]["parts"]
    assert len(found) == 102, "101 levels"
    assert (found[-1]["refusal"], found[-1]["text"]) == ("Recursion limit reached", "\nend"), "101 levels"
    assert [part["refusal"] for part in found[:-1]] == [None] * 101, "101 levels"


def test_many():
    """100,000 parts in one mail, each three bytes."""
    count = 100_000
    data = b"Content-Type: multipart/mixed; boundary=b\n\n" + b"--b\n\none\n" * count
    found = objects([], data, 0, "100,000 parts")[0]["parts"]
    places = [(str(number + 1), 43 + 9 * number + 4, 43 + 9 * number + 8, "one") for number in range(count)]
    places[-1] = (*places[-1][:2], len(data), "one\n")
    assert [(part["path"], part["start"], part["end"], part["text"]) for part in found[1:]] == places, "100,000 parts"


def made(random_, end, path, levels):
    """The bytes of a part, and of it and of its parts the path, the bytes and the offset in them."""
    if levels == 0 or random_.random() < 0.4:
        lines_ = [b"x" * random_.randrange(3) for _line in range(random_.randrange(3))]
        raw = random_.choice([b"", b"Subject: a" + end]) + end + end.join(lines_)
        return raw, [(path, raw, 0)]
    boundary = b"b%d" % levels
    start = b"Content-Type: multipart/mixed; boundary=" + boundary + end + end
    raw = start + random_.choice([b"", b"preamble" + end, b"--%bx" % boundary + end, end + b"--bx%b" % boundary + end])
    places = []
    for number in range(1, random_.randrange(2, 5)):
        raw += b"--" + boundary + random_.choice([b"", b" ", b"\t"]) + end
        part, inside = made(random_, end, f"{path}.{number}" if path else str(number), levels - 1)
        places += [(path_, raw_, len(raw) + at) for path_, raw_, at in inside]
        raw += part + end
    raw += b"--" + boundary + b"--" + random_.choice([b"", end, end + b"epilogue"])
    return raw, [(path, raw, 0)] + places


def test_edges():
    """Where parts begin and end that are empty, after a boundary that is folded, and without an end."""
    start = b"Content-Type: multipart/mixed; boundary=b\n\n"
    for data, wanted in (
        (start + b"--b\n--b\n\n--b--\n", [(0, 58), (47, 47), (51, 51)]),
        (start + b"--b\n\none", [(0, 51), (47, 51)]),
        (start + b"--b", [(0, 46)]),
        (b'Content-Type: multipart/mixed; boundary="b\n c"\n\n--b c\n\none', [(0, 58), (54, 58)]),
    ):
        found = objects([], data, 0, repr(data))[0]["parts"]
        assert [(part["start"], part["end"]) for part in found] == wanted, repr(data)


def test_places():
    """Where parts begin and end, in mails and mailboxes of parts at known places."""
    random_ = random.Random(1)
    for turn in range(150):
        raw, places = made(random_, random_.choice([b"\n", b"\r\n"]), "", 3)
        if len(places) == 1:
            places = [("1", raw, 0)]
        wanted = [(path, at, at + len(part)) for path, part, at in places]
        found = objects([], raw, 0, f"places {turn}")[0]["parts"]
        assert [(part["path"], part["start"], part["end"]) for part in found] == wanted, f"places {turn}: {raw!r}"
        front = FROM + b"Subject: 1\n\none\n\n" + FROM
        found = objects(["--mbox"], front + raw + b"\n\n", 0, f"places {turn} in a mailbox")
        place = [found[1][name] for name in ORIGIN]
        assert place == [6, None, 2, len(front), len(front + raw) + 1], f"places {turn} in a mailbox"
        starts = [part["start"] for part in found[1]["parts"]]
        assert starts == [len(front) + at for _path, _part, at in places], f"places {turn} in a mailbox"


def subjects(arguments, data, status, what):
    """The subject of each mail of a mailbox, or its error."""
    return [value.get("subject", value.get("error")) for value in objects(arguments, data, status, what)]


def test_mailboxes():
    """Mailboxes, whose mails are known."""
    crlf = FROM.replace(b"\n", b"\r\n")
    for data, status, wanted in (
        (b"", 0, []),
        (FROM + b"Subject: 1\n\none\n\n" + FROM + b"Subject: 2\n\ntwo", 0, ["1", "2"]),
        (crlf + b"Subject: 1\r\n\r\none\r\n\r\n" + crlf + b"Subject: 2\r\n\r\ntwo\r\n", 0, ["1", "2"]),
        (FROM + FROM + b"Subject: 1\n\none\n", 0, ["1"]),
        (FROM[:-1], 0, [None]),
        (FROM + b"\n" + FROM + b"Subject: 2\n", 0, [None, "2"]),
        (FROM + b"Subject: 1\n\nFrom the start I knew\n\n" + FROM + b"Subject: 2\n\n", 0, ["1", "2"]),
        (FROM + b"Subject: 1\n\n>From x\n\n" + FROM + b" x\n\n" + FROM + b"Subject: 3\n\n", 0, ["1", None, "3"]),
        (b"\n\n" + FROM + b"Subject: 1\n\n", 0, ["1"]),
        (b"Subject: 1\n\none\n", 3, ["The mailbox does not begin with a separator"]),
    ):
        assert subjects(["--mbox"], data, status, repr(data)) == wanted, repr(data)
        if data.startswith(FROM):
            assert subjects([], data, status, f"{data!r} by itself") == wanted, f"{data!r} by itself"
    assert subjects(["--mail"], FROM + b"Subject: 1\n\n", 0, "--mail") == ["1"], "--mail"
    text = b"\n\nx\n\n" + FROM + b"\ny\n"
    counted = FROM + b"Subject: 1\nContent-Length: %d" % (len(text) - 2) + text + b"\n" + FROM + b"Subject: 2\n"
    assert subjects(["--mbox=cl"], counted, 0, "--mbox=cl") == ["1", "2"], "--mbox=cl"
    assert subjects(["--mbox"], counted, 0, "counted, --mbox") == ["1", None, "2"], "counted, --mbox"
    quoted = FROM + b"Subject: 1\n\n>From x\n>>From y\n"
    for option, text in (("--mbox", ">From x\n>>From y\n"), ("--mbox=rd", "From x\n>From y\n")):
        found = objects([option], quoted, 0, option)[0]
        assert [found["end"], found["parts"][0]["text"]] == [len(quoted), text], option


def in_pieces(data, size):
    """What the program writes of bytes that come in pieces of this size."""
    with tempfile.TemporaryFile() as out:
        with subprocess.Popen(command("json"), stdin=subprocess.PIPE, stdout=out, bufsize=0) as process:
            for at in range(0, len(data), size):
                process.stdin.write(data[at : at + size])
        out.seek(0)
        return out.read()


def test_pieces():
    """Mailboxes that come in pieces: their lines are those of the whole, and the first one comes at once."""
    random_ = random.Random(40)
    mails = [FROM + b"Subject: %d\n\n" % n + b"x\n" * random_.randrange(40_000) + b"\n" for n in range(30)]
    for size, data in (
        (1, b"".join(mail[:300] + b"\n\n" for mail in mails)),
        (977, b"".join(mails)),
        (65_537, b"".join(mails)),
        (4_095, b"Subject: 1\n\n" + b"".join(mails)),
        (997, b"x" * 100_000),
    ):
        with tempfile.NamedTemporaryFile() as whole:
            whole.write(data)
            whole.flush()
            found = run([whole.name]).stdout.replace(json.dumps(whole.name).encode(), b"null")
        assert in_pieces(data, size) == found, f"{len(data)} bytes in pieces of {size}"
    assert subjects([], b"".join(mails), 0, "30 mails") == [str(n) for n in range(30)], "30 mails"
    ended = run(["--progress"], b"".join(mails) * (80_000_000 // len(b"".join(mails)) + 1))
    told = re.fullmatch(rb"rocktray: standard input: (\d+) bytes, \d+ mails\n", ended.stderr)
    assert told and 2**26 <= int(told[1]) < 2**26 + 2**20, "how far a run is"
    with subprocess.Popen(command("json"), stdin=subprocess.PIPE, stdout=subprocess.PIPE, bufsize=0) as process:
        process.stdin.write(mails[0] + mails[1][:100])
        assert select.select([process.stdout], [], [], 10)[0] != [], "the first line before the end"
        process.stdin.close()
        process.stdout.read()


def begin(data, line):
    """The place at which the separator before the mail of a line begins."""
    return data.rfind(b"\n", 0, line["start"] - 1) + 1


def made_mailbox(random_):
    """A mailbox of short mails, some of them without headers or not separated, perhaps after other lines."""
    end = random_.choice([b"\n", b"\r\n"])
    fronts = [b"", b"", b"", end, b"junk" + end, b"Subject: 1" + end + end + b"one" + end + end]
    data = random_.choice(fronts)
    for number in range(random_.randrange(8)):
        data += FROM[:-1] + end
        data += random_.choice([b"", b"Subject: %d" % number + end, b" x" + end, b"From the start" + end])
        data += random_.choice([b"", end]) + random_.choice([b"", b"one" + end, b">From x" + end, FROM[:-1] + end])
        data += random_.choice([b"", end, end, end, end + end, end + b"From here to there" + end + end])
    return data


def compare_parts(name, data, arguments, counts):
    """Compares the lines of the parts of a file with those of the whole, cut at where their mails begin."""
    with open(name, "wb") as file:
        file.write(data)
    whole = lines(run([*arguments, name]).stdout, f"{data!r:.300}")
    for count in counts:
        found = []
        for number in range(1, count + 1):
            what = f"{data!r:.300}, part {number} of {count}"
            first, after = len(data) * (number - 1) // count, len(data) * number // count
            ended = run([*arguments, "--part", f"{number}/{count}", name])
            part = lines(ended.stdout, what)
            wanted = [
                {**line, "number": None}
                for line in whole
                if (number == 1 if line["number"] is None else first <= begin(data, line) < after)
            ]
            assert part == wanted, what
            assert (ended.returncode, ended.stderr) == (3 if any("error" in line for line in wanted) else 0, b""), what
            found += part
        assert found == [{**line, "number": None} for line in whole], f"{data!r:.300} in {count} parts"


def test_parts():
    """Parts of files: together they are the whole, and each mail is in the part in which its separator begins."""
    random_ = random.Random(97)
    with tempfile.TemporaryDirectory() as directory:
        name = os.path.join(directory, "file")
        for turn in range(24):
            arguments = [[], ["--mbox"], ["--mbox=rd"]][turn % 3]
            compare_parts(name, made_mailbox(random_), arguments, range(1, 8))
        for data in (FROM + b"\none\n\n" + FROM, b"\r\n" + FROM + b"\r\n" + FROM + b" x\n"):
            compare_parts(name, data, ["--mbox"], [len(data), len(data) + 3])
        for arguments in ([], ["--mbox"]):
            for data in (b"", b"Subject: 1\n\none\n", b" x", b"\n"):
                compare_parts(name, data, arguments, [1, 3, 40])
        long_ = b"".join(FROM + b"Subject: %d\n\n" % n + b"x\n" * random_.randrange(60_000) + b"\n" for n in range(20))
        compare_parts(name, long_ + FROM + b"\n" + b"x\n" * 1_000_000, [], [2, 16])
        with open(name, "wb") as file:
            file.write(long_ * (80_000_000 // len(long_) + 1))
        ended = run(["--progress", "--part", "1/1", name])
        told = re.fullmatch(rb"rocktray: .*/file: (\d+) bytes\n", ended.stderr)
        assert told and 2**26 <= int(told[1]) < 2**26 + 2**20, "how far a part is"
        assert run(["--progress", "--part", "2/2", name]).stderr == b"", "how far a short part is"
        os.mkfifo(os.path.join(directory, "pipe"))
        wrong = [["--part"], ["--part", "1/2"], ["--part", "1/2", "-"], ["--part", "1/2", name, "-"]]
        wrong += [["--part", word, name] for word in ("0/2", "3/2", "0/0", "1", "1/", "/1", "+1/2", "1/+2", "-1/2", "1/2/3", "a/b", "", "1 /2")]
        wrong += [["--part", "1/2", option, name] for option in ("--mail", "--mbox=cl")]
        wrong += [["--mail", "--part", "1/2", name], ["--part", "1/2", directory], ["--part", "1/2", name, os.path.join(directory, "pipe")]]
        for arguments in wrong:
            ended = run(arguments)
            assert ended.returncode == 2 and not ended.stdout and ended.stderr, f"{arguments} is refused"
        compare_parts(name, FROM + b"\n" + FROM + b"\n" + FROM, [], [2])
        ended = run(["--part", "2/2", "/no/such/file", name])
        found = lines(ended.stdout, "a part of a file that is missing")
        assert (ended.returncode, found[0]["file"], len(found) > 1) == (1, "/no/such/file", True), "a part of a file that is missing"


def test_calls():
    """Arguments, files and streams."""
    ended = run(["--mbox", "--help"])
    assert ended.returncode == 0 and b"--mbox" in ended.stdout and not ended.stderr, "--help"
    ended = run(["--version"])
    assert ended.returncode == 0 and ended.stdout.startswith(b"rocktray json ") and not ended.stderr, "--version"
    for arguments in (["--no-such-option"], ["-x"], ["--mbox", "--mboxes"], ["--mbox=x"], [""]):
        ended = run(arguments)
        assert ended.returncode == 2 and not ended.stdout and ended.stderr, f"{arguments} is refused"
    names = [os.path.join(TOP, "samples", name) for name in ("plain.eml", "parts.eml")]
    both = b"".join(run([name]).stdout for name in names)
    assert run(names).stdout == both, "two files"
    assert run(["--", *names]).stdout == both, "names after --"
    with open(names[0], "rb") as file:
        found = objects([names[1], "-"], file.read(), 0, "standard input by name")
    assert [value["file"] for value in found] == [names[1], None], "standard input by name"
    ended = run([names[0], "/no/such/file", names[1]])
    found = lines(ended.stdout, "a file that is missing")
    assert (ended.returncode, len(found)) == (1, 3), "a file that is missing"
    assert [found[1][name] for name in ORIGIN] == [6, "/no/such/file", None, None, None], "a file that is missing"
    assert b"/no/such/file" in ended.stderr, "a file that is missing is named"
    with open("/dev/full", "wb") as full:
        ended = run(names, stdout=full, stderr=subprocess.PIPE)
        assert ended.returncode == 1 and ended.stderr, "output that is full"
    check_directories(names, both)


def check_directories(names, both):
    """A closed pipe, directories, and names that are not UTF-8."""
    launcher = os.path.join(TOP, "rocktray")
    with tempfile.TemporaryDirectory() as directory:
        many = os.path.join(directory, "many.mbox")
        with open(many, "wb") as file:
            file.write((FROM + b"Subject: 1\n\none\n\n") * 20_000)
        ended = subprocess.run(f"'{program('rocktray')}' json '{many}' | head -n 1 | wc -l", shell=True, capture_output=True, timeout=60)
        assert (ended.stdout.strip(), ended.stderr) == (b"1", b""), "a pipe that is closed"
        link = os.path.join(directory, "link")
        os.symlink(launcher, link)
        ended = subprocess.run([link, "json", *names], capture_output=True, cwd=directory, timeout=60)
        assert ended.stdout == both, "through a symbolic link"
        for name in ("cur", "new", "tmp"):
            os.makedirs(os.path.join(directory, "maildir", name))
        for name in ("cur/2:2,S", "cur/10:2,", "new/1", "tmp/3", "cur/.hidden"):
            with open(os.path.join(directory, "maildir", name), "wb") as file:
                file.write(FROM + b"Subject: " + name.encode() + b"\n\n")
        assert subjects([os.path.join(directory, "maildir")], b"", 0, "a Maildir") == ["cur/10:2,", "cur/2:2,S", "new/1"], "a Maildir"
        found = objects([os.path.join(directory, "maildir", "cur")], b"", 0, "a directory of mails")
        wanted = [os.path.join(directory, "maildir", "cur", name) for name in ("10:2,", "2:2,S")]
        assert [value["file"] for value in found] == wanted, "a directory of mails"
        with open(os.path.join(directory, "mail.gz"), "wb") as file:
            file.write(b"\x1f\x8b")
        ended = run([os.path.join(directory, "mail.gz")])
        assert ended.returncode == 1 and b"compressed" in ended.stderr, "a compressed file"
        bad = os.path.join(os.fsencode(directory), b"caf\xe9.eml")
        ended = run([names[0], bad, names[1]])
        found = [value["file"] for value in lines(ended.stdout, "a name that is not UTF-8")]
        wanted = [names[0], f"{directory}/caf\\xE9.eml", names[1]]
        assert (ended.returncode, found) == (1, wanted), "a name that is not UTF-8"
