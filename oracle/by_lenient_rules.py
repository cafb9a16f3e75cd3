"""What docs/RULES.md says of the headers of a mail that is read leniently, written a second time beside by_rules.py.

It shares nothing with the definitions in specs/ but the page: which headers a mail and its parts have, and the text of each.
Of the charsets beside the four of by_rules.py it knows KOI8-R alone, and that in no boundary.
"""

import re

from by_rules import (
    ASCII_BLANKS, LETTERS, WHITE, Refused, base64_bytes, block_of, charset_of, decoded, lower, quoted_printable_bytes, raw_text, with_parameters,
)  # fmt: skip

WHITE_BYTES = ASCII_BLANKS.encode()
# whitespace other than a space, a tab, a CR and a LF
OTHER_WHITE = set(WHITE) - set(" \t\r\n")
BLANKS = f"[{ASCII_BLANKS}]*"
FIRST_WORDS = re.compile(rf'{BLANKS}[^{ASCII_BLANKS};/"]+(?:{BLANKS}/{BLANKS}[^{ASCII_BLANKS};/"]*)*{BLANKS}')
QUOTED = re.compile(rf'{BLANKS}"(?:[^"\\]|\\.)*\\?("?){BLANKS}', re.S)
BARE = re.compile(rf"[^;]*?(?=;|\Z|[{ASCII_BLANKS}][A-Za-z][A-Za-z0-9*-]*=)")


# Texts of headers.


def text_in(label, data):
    """The text of bytes under the label of a charset, or None for an unknown label."""
    charset = charset_of(label)
    if charset is None:
        is_koi8 = lower(label.strip(ASCII_BLANKS)) in ("cskoi8r", "koi", "koi8", "koi8-r", "koi8_r")
        return data.decode("koi8-r") if is_koi8 else None
    return decoded(data, charset)


def text_of(data):
    """The text of bytes: UTF-8, or otherwise windows-1252."""
    try:
        return data.decode("utf-8")
    except UnicodeDecodeError:
        return decoded(data, "windows-1252")


def base64_front(data):
    """The bytes that can be read of Base64."""
    try:
        return base64_bytes(data, WHITE_BYTES)
    except Refused:
        pass
    front, padding, rest = data.partition(b"=")
    after = re.match(rb"[A-Za-z0-9+/= \t\n\x0c\r]*", rest)[0]
    left = bytes(it for it in front if it in LETTERS) + padding + bytes(it for it in after if it not in WHITE_BYTES)
    out = b""
    for at in range(0, len(left), 4):
        group = left[at : at + 4]
        if at + 4 >= len(left) and len(group.rstrip(b"=")) >= 2 and re.fullmatch(rb"[^=]{2,3}|[^=]{2}=", group):
            group = group.rstrip(b"=").ljust(4, b"=")
        try:
            out += base64_bytes(group, b"")
        except Refused:
            break
    return out


def octets(encoding, data):
    """The bytes of the encoded text of a word."""
    if encoding in b"Bb":
        return base64_front(data)
    return quoted_printable_bytes(data.replace(b"_", b" ") + b"=")


def words_of(data):
    """The texts and words of a value, in turn; a word is a label and bytes. The last is a text."""
    found, front, at = [], 0, 0
    while (at := data.find(b"=?", at)) >= 0:
        head = re.compile(rb"=\?([^=?]*)\?([BbQq])\?").match(data, at)
        label = head and head[1].partition(b"*")[0].decode("latin-1")
        if head is None or text_in(label, b"") is None:
            at += 1
            continue
        end = data.find(b"?=", head.end())
        if end < 0:
            break
        found += [data[front:at], (label, octets(head[2], data[head.end() : end]))]
        front = at = end + 2
    return [*found, data[front:]]


def header_text(value):
    """The text of a value."""
    unfolded = re.sub(rb"\r?\n(?=[ \t])", b"", value).lstrip(b" \t")
    pieces = words_of(unfolded)
    out, label, run = "", None, b""
    for text, word in zip(pieces[::2], [*pieces[1::2], None]):
        is_between = label is not None and word is not None and not text.strip(WHITE_BYTES)
        if not (is_between and lower(label) == lower(word[0])):
            out += text_in(label, run) if label is not None else ""
            run = b""
        out += "" if is_between else text_of(text)
        label, run = (word[0], run + word[1]) if word else (None, b"")
    return out


# Types.


def without_comments(text):
    """A text without its comments; a quoted string contains none."""
    out, depth, quoted, at = "", 0, False, 0
    while at < len(text):
        size = 2 if text[at] == "\\" and (quoted or depth) else 1
        if text[at] == '"' and not depth:
            quoted = not quoted
        if not quoted:
            depth += text[at] == "("
        out += text[at : at + size] if not depth else ""
        if not quoted and depth:
            depth -= text[at] == ")"
        at += size
    return out


def repaired(text):
    """A text of a type with the semicolons and the closing quotes that it lacks, and an underscore in names before
    whitespace that mails do not use."""
    first = FIRST_WORDS.match(text)
    out, at = (first[0], first.end()) if first else ("", 0)
    while at < len(text):
        if out and text[at] != ";":
            out += ";"
        name = re.compile("[^=]?[^=;]*=?").match(text, at)
        is_cut = text[at] in ASCII_BLANKS  # in a text without quotes
        out += name[0][:is_cut] + "".join("_" * (it in OTHER_WHITE) + it for it in name[0][is_cut:])
        at = name.end()
        if not name[0].endswith("="):
            continue
        found = QUOTED.match(text, at) or BARE.match(text, at)
        out, at = out + found[0], found.end()
        if found.re is QUOTED and not found[1]:
            out += '"'
    return out


def undecoded(value):
    """The text of a value with its encoded words as they are."""
    *lines, last = raw_text(value).split("\n")
    return " ".join(line.lstrip(WHITE) for line in [*(line.removesuffix("\r") for line in lines), *[last] * bool(last)])


def type_of(value):
    """The type and the boundary that a value gives, or no boundary."""
    kind, found = with_parameters(repaired(without_comments(undecoded(value))))
    kind, boundary = lower(kind), found.get("boundary")
    if "/" in kind:
        first, second = (it.strip(WHITE) for it in kind.split("/", 1))
        kind = f"{first}/{second}" if first and second else "text/plain"
    elif not kind.startswith("multipart"):
        kind = "text/plain"
    return kind, None if boundary is not None and re.search("[\r\n]", boundary) else boundary


# Mails.


def header_part(data):
    """The bytes that the headers are read from: those before a line that looks like a delimiter."""
    at = data.find(b"\n") + 1
    while 0 < at < len(data) and not re.compile(rb"\r?\n").match(data, at):
        if re.compile(rb"--[^:\n]*(\n|\Z)").match(data, at):
            return data[:at]
        at = data.find(b"\n", at) + 1
    return data


def parts_of(data, at, boundary):
    """The bytes of the parts, between whole lines that are delimiters."""
    dash = b"--" + boundary.encode()
    line = re.compile(rb"(?:(?<=\n)|\A)" + re.escape(dash) + rb"(--)?[ \t]*\r*(?:\n|\Z)")
    body, begin, found = data[at:], None, []
    for delimiter in line.finditer(body):
        if begin is not None:
            found.append(re.sub(rb"\r?\n\Z", b"", body[begin : delimiter.start()]))
            if delimiter[1] or len(body) - delimiter.start() - len(dash) < 2:
                return found
        if not delimiter[0].endswith(b"\n"):
            return found
        begin = delimiter.end()
    return found if begin is None else [*found, body[begin:]]


def headers_of(data, level=0):
    """The headers of a mail and of its parts in reading order: key and text of each."""
    if level > 100:
        return []
    try:
        headers, at = block_of(header_part(data))
    except Refused:
        return []
    headers = [(key.rstrip(b" \t"), value) for key, value in headers]
    value = next((value for key, value in headers if lower(key.decode("latin-1")) == "content-type"), None)
    kind, boundary = type_of(value) if value is not None else ("", None)
    found = [(key.decode("latin-1"), header_text(value)) for key, value in headers]
    if kind.startswith("multipart") and boundary is not None:
        for part in parts_of(data, at, boundary):
            found += headers_of(part, level + 1)
    return found
