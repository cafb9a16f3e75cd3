"""What `rocktray show` writes, beside what Python's email package reads of the same mails.

The mails are those of samples/, made ones whose values try to move the cursor, to end a line or to look like another
line, and hostile ones. Which characters are hidden is taken from Python's unicodedata.
"""
import email
import re

import pytest

from support import FROM, SAMPLES, command, is_hidden, multipart, run

from by_email import addresses_of, body_of, file_name, has_parts, is_file, parts_of, text_of, value_of, walk

ADDRESSES = {"from": "From:     ", "reply-to": "Reply-To: ", "to": "To:       ", "cc": "Cc:       "}
VALUES = {"date": "Date:     ", "subject": "Subject:  "}
PREFIXES = (*ADDRESSES.values(), *VALUES.values(), "Text:     ", "Part:     ", "Refused:  ", "-- ", "  ")
SPECIALS = re.compile(r'[()<>\[\]:;@\\,"]')
MANY = "Too many parts and headers"


def shown(text):
    """A text as it is shown."""
    return "".join("    " if c == "\t" else "\ufffd" if is_hidden(c) else c for c in text)


def name_text(name):
    """A name, in quotes if it has one of the specials."""
    return '"' + re.sub(r'(["\\])', r"\\\1", name) + '"' if SPECIALS.search(name) else name


def address_text(found):
    """The texts of an element of a list of addresses."""
    if "group" in found:
        return [name_text(found["group"]) + ":"] + [text for member in found["members"] for text in address_text(member)]
    if "unknown" in found:
        return [name_text(found["unknown"])]
    return [f"{name_text(found['name'])} <{found['address']}>" if found["name"] else found["address"]]


def read_text(mail):
    """The text of a mail: the first plain or HTML text that is no file, or None. Of the versions in a
    multipart/alternative the first plain text is preferred."""
    for may_have_name in (False, True):
        for _, part in parts_of(mail):
            versions = [part] if part.get_content_type() != "multipart/alternative" else [one for _, one in walk(part, "")]
            for kind in ("text/plain", "text/html"):
                for one in versions:
                    named = file_name(one) is not None and not may_have_name
                    read_as = one.get_content_type()
                    if one.get_content_maintype() == "multipart" and not has_parts(one):
                        read_as = "text/plain"
                    if read_as == kind and not named and one.get_content_disposition() != "attachment":
                        return text_of(one, body_of(one))["text"]
    return None


def inline_texts(part, path):
    """The texts of a part with this path that are read one after another, each with the path of its own part. Parts that
    are no multiparts, and each multipart/alternative, have one, unless it consists of whitespace or the part is a file."""
    if has_parts(part) and part.get_content_type() != "multipart/alternative":
        for number, one in enumerate(part.get_payload(), 1):
            yield from inline_texts(one, f"{path}.{number}" if path else str(number))
    elif not is_file(part):
        text = read_text(part)
        if text and text.strip():
            yield path, text


def text_lines(text):
    """The lines of a text, each after two spaces."""
    lines = [line.removesuffix("\r") for line in text.removesuffix("\n").split("\n")] if text else []
    return ["  " + shown(line) if line else "" for line in lines]


def view(raw):
    """What is shown of a mail."""
    mail = email.message_from_bytes(raw)
    lines = []
    for key, prefix in ADDRESSES.items():
        lines += [prefix + shown(text) for found in addresses_of(mail, key) for text in address_text(found)]
    lines += [prefix + shown(value_of(mail, key)) for key, prefix in VALUES.items() if mail[key] is not None]
    texts = list(inline_texts(mail, "" if has_parts(mail) else "1")) or [("", text) for text in [read_text(mail)] if text is not None]
    for number, (path, text) in enumerate(texts):
        lines += ["", f"Text:     {path}"] * (number > 0) + ["", *text_lines(text)]
    lines.append("")
    for path, part in parts_of(mail):
        if not has_parts(part):
            size, name = f"{len(body_of(part))} bytes", file_name(part)
            name = name and re.sub(r"\r?\n[ \t]*", " ", name)  # a line end in a name is read as in a value
            row = f"{path:4}  {part.get_content_type():24}  {size}"
            lines.append("Part:     " + (shown(f"{row:46}  {name}") if name else row))
    return "".join(line + "\n" for line in lines)


def show(*arguments, data=b""):
    """The exit status and the output of the program."""
    ended = run([*command("show"), *arguments], data)
    return ended.returncode, ended.stdout.decode("utf-8")


def is_safe(output):
    """Whether no character is hidden, and each line begins as one of the program does."""
    lines = output.removesuffix("\n").split("\n")
    return not any(is_hidden(c) for line in lines for c in line) and all(not it or it.startswith(PREFIXES) for it in lines)


@pytest.mark.parametrize("path", SAMPLES, ids=lambda it: it.stem)
def test_glance(path):
    """The program that ./rocktray tries until something is built shows what `rocktray show` does."""
    mail = path.read_bytes()
    glance, show = run(command("mail_glance"), mail), run([*command("show"), "-"], mail)
    assert (glance.returncode, glance.stdout, glance.stderr) == (show.returncode, show.stdout, show.stderr)


@pytest.mark.parametrize("path", [path for path in SAMPLES if path.stem not in ("bounce", "digest")], ids=lambda it: it.stem)
def test_samples(path):
    """Each sample that Python reads as this project does: it enters forwarded mails and keeps text around parts."""
    assert show(path) == (0, view(path.read_bytes()))


# a value that would clear the screen, forge a line, and turn the direction of writing
EVIL = "a\x1b[2J\x9b1m\x00\r\n\x7f\u2028From: b\u202egnp.exe\u2066\u061c\u200f\x85\tc"


def encoded(text):
    """A text as an encoded word."""
    return f"=?utf-8?q?{''.join(f'={byte:02X}' for byte in text.encode())}?="


# Python accepts no line end in a name, and reads a tab in one as a space
NAME = encoded(EVIL.replace("\r\n", "").replace("\t", " "))
TEXT = f"Subject: forged\n\n{EVIL}\n-- mail 2 --\nPart:     9\n\nend"
MADE = {
    "values": f"From: {NAME} <a@example.org>\nTo: {NAME}: b@example.org;\nSubject: {encoded(EVIL)}\n\n".encode(),
    "text": b"Content-Type: text/plain; charset=utf-8\nContent-Transfer-Encoding: 8bit\n\n" + TEXT.encode(),
    "name that is an address": b"From: =?utf-8?q?Boss_=3Cboss=40example.org=3E?= <eve@example.org>\n\n",
    "words beside text": b"Subject: [=?utf-8?Q?a?=] Re:=?utf-8?Q?caf=C3?=\r\n =?utf-8?Q?=A9?=\r\n\r\nHi\r\n",
    "no boundary": b"Subject: a\n\t=?utf-8?Q?b?=\nContent-Type: multipart/alternative\n\nHi\n",
    "two senders": b"From: a@example.org\nFrom: b@example.org\nReply-To: c@example.org\nCc: d@example.org\n\nHi\n",
    "several texts": multipart(
        b"b", b"\none\n\nText:     9\n\nforged\n", b"Content-Type: image/png\n\nx", b"\nText:     2\n\n\ttwo\n", b"\n \n",
        multipart(b"c", b"\nthree", b"\n3"),
        multipart(b"d", b"Content-Type: text/html\n\n<b>four", b"\nfour", kind=b"alternative"),
        b"Content-Type: text/plain; name=five.txt\n\nfive", b"Content-Disposition: attachment\n\nsix", b"Content-Type: text/csv\n\n7",
    ),
    "texts that are whitespace": multipart(b"b", b"\n \n\n", b"\n\n"),
    "texts that are files": multipart(b"b", b"Content-Type: text/plain; name=a.txt\n\na", b"Content-Type: text/plain; name=b.txt\n\nb"),
    "file name": multipart(
        b"b", b"Content-Disposition: attachment; filename*=utf-8''a%0APart%3A%1B%E2%80%AEgnp.exe\n\nx", b"\nHi"
    ),
}


@pytest.mark.parametrize("name", MADE)
def test_made(name):
    """Values that try to move the cursor or to forge a line."""
    status, output = show("-", data=MADE[name])
    assert status == 0 and is_safe(output) and output == view(MADE[name])


def test_hostile(hostile):
    """No mail moves the cursor or forges a line, whatever it contains."""
    for paths in (hostile[at : at + 500] for at in range(0, len(hostile), 500)):
        status, output = show(*paths)
        assert status in (0, 3) and is_safe(output)


def test_html():
    """A mail without plain text is shown by the text of its HTML, with the targets of links as footnotes."""
    raw = b"Subject: Fish\nContent-Type: text/html\n\n<title>Menu</title><p>Fish &amp;\n<a href=' https://a.example/?x&amp;y'>chips</a>"
    raw += b"<script>no text</script><p>\x1b[2Jtea &#60;b&#62;<a href='#'>\n-- mail 2 --</a>"
    body = "  Menu\n\n  Fish & [1]chips\n\n  \ufffd[2Jtea <b>[2] -- mail 2 --\n\n  [1] https://a.example/?x&y\n  [2] #\n"
    size = len(raw) - raw.index(b"<title>")
    row = f"{'1':4}  {'text/html':24}  {size} bytes"
    assert show("-", data=raw) == (0, f"Subject:  Fish\n\n{body}\nPart:     {row}\n")


def test_several_texts():
    """Each text is shown in order, each but the first after a line with its path; HTML is if nothing is beside it."""
    html = b"Content-Type: text/html\n\n"
    both = multipart(b"c", b"\nplain", html + b"<b>html", kind=b"alternative")
    parts = (
        b"\nfirst text\n", b"Content-Type: image/png\n\nx", b"\nsecond text: the price is 100\n", html + b"<p><a href=//x>third</a>",
        both, multipart(b"d", html + b"<i>fifth", b"Content-Type: image/gif\n\nx", kind=b"related"),
        b"Content-Type: message/rfc822\n\nSubject: no\n\nno\n",
    )
    status, output = show("-", data=multipart(b"b", *parts))
    texts = output.partition("\nPart:     ")[0]
    assert status == 0 and is_safe(output) and texts == (
        "\n  first text\n\nText:     3\n\n  second text: the price is 100\n\nText:     4\n\n  [1]third\n\n  [1] //x\n"
        "\nText:     5\n\n  plain\n\nText:     6.1\n\n  fifth\n"
    )


def test_empty_text():
    """A mail whose plain text is empty is shown by the text of its HTML; without HTML, or if it is a file, by nothing."""
    def body(*parts):
        raw = b"".join(b"--b\n" + part + b"\n" for part in parts)
        status, output = show("-", data=b"Content-Type: multipart/alternative; boundary=b\n\n" + raw + b"--b--\n")
        assert status == 0
        return [line for line in output.split("\n") if line.startswith("  ")]

    empty, html = b"\n \n\t\n", b"Content-Type: text/html\n\n<p>Fish</p>\n"
    no_words = b"Content-Type: text/html\n\n<img src=x>\n"
    assert body(empty, html) == body(empty, no_words, html) == body(html) == ["  Fish"]
    assert not [line for line in body(empty, b"Content-Disposition: attachment\n" + html) if line.strip()]
    assert not [line for line in body(empty, no_words) if line.strip()]


def test_refused():
    """Why a mail is refused is in the output, and the status says so."""
    assert show("--max-items", "1", "-", data=b"A: b\n\n") == (3, f"Refused:  {MANY}\n")


def test_headers_not_read():
    """The line of a part whose headers could not be read says so."""
    assert show("-", data=b" x") == (0, f"\n   x\n\nPart:     1     {'text/plain':24}  2 bytes, headers not read\n")


def test_mailbox():
    """The mails of a mailbox, each after its number; one that is refused is reported."""
    one = b"Subject: one\n\n-- mail 3 --\n"
    status, output = show("--max-items", "2", "-", data=FROM + one + b"\n" + FROM + b"A: b\nC: d\n")
    assert (status, output) == (3, f"-- mail 1 --\n{view(one)}\n-- mail 2 --\nRefused:  {MANY}\n\n")


def test_files(tmp_path):
    """Several files, each after its name, which is escaped too."""
    names = ["a.eml", "b\x1b[2J\n-- mail 1 --.eml"]
    for name in names:
        (tmp_path / name).write_bytes(b"Subject: x\n\nHi\n")
    status, output = show(*(tmp_path / name for name in names))
    titles = [f"-- {shown(str(tmp_path / name))} --\n" for name in names]
    assert status == 0 and is_safe(output) and re.findall("(?m)^-- .* --\n", output) == titles
