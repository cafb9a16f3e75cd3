"""What docs/RULES.md says of values, types, dispositions, bodies, dates, ids and mails, written a second time.

It shares nothing with the definitions in specs/ but the page. Results are items as rows of the suite have them. Texts are
bytes. The crate agrees on all rows that it made (test_oracle.py).
"""

import calendar
import re

LABELS = {
    "utf-8": "unicode-1-1-utf-8 unicode11utf8 unicode20utf8 utf-8 utf8 x-unicode20utf8",
    "windows-1252": "ansi_x3.4-1968 ascii cp1252 cp819 csisolatin1 ibm819 iso-8859-1 iso-ir-100 iso8859-1 iso88591 "
    "iso_8859-1 iso_8859-1:1987 l1 latin1 us-ascii windows-1252 x-cp1252",
    "utf-16-be": "unicodefffe utf-16be",
    "utf-16-le": "csunicode iso-10646-ucs-2 ucs-2 unicode unicodefeff utf-16 utf-16le",
}
CHARSETS = {label: charset for charset, labels in LABELS.items() for label in labels.split()}
MARKS = ((b"\xef\xbb\xbf", "utf-8"), (b"\xfe\xff", "utf-16-be"), (b"\xff\xfe", "utf-16-le"))
ASCII_BLANKS = " \t\n\x0c\r"
LETTERS = b"ABCDEFGHIJKLMNOPQRSTUVWXYZabcdefghijklmnopqrstuvwxyz0123456789+/"
# Unicode's White_Space
WHITE = "".join(map(chr, (*range(9, 14), 32, 0x85, 0xA0, 0x1680, *range(0x2000, 0x200B), 0x2028, 0x2029, 0x202F, 0x205F, 0x3000)))
BESIDE = WHITE + '"()<>,'
SPACE = "Header cannot start with a space; it is likely an overhanging line from a previous header"
LONE_CR = "Headers were followed by an unexpected lone CR character!"
NOT_UTF_8 = "Encoding error: Invalid UTF-8 in header value"


class Refused(Exception):
    """A refusal, with its text."""


def refusal(error):
    """The items of a refusal."""
    return ["error", str(error).encode()]


def lower(text):
    """A text in ASCII lower case."""
    return re.sub("[A-Z]", lambda found: found[0].lower(), text)


# Charsets.


def charset_of(label):
    """The charset of a label, or None."""
    return CHARSETS.get(lower(label.strip(ASCII_BLANKS)))


def decoded(data, charset):
    """The text of bytes in a charset."""
    if charset == "windows-1252":
        return "".join(bytes([it]).decode("cp1252") if it not in b"\x81\x8d\x8f\x90\x9d" else chr(it) for it in data)
    if charset == "utf-8":
        return data.decode("utf-8", "replace")
    units = [int.from_bytes(data[at : at + 2], "big" if charset.endswith("be") else "little") for at in range(0, len(data) - 1, 2)]
    text, at, is_odd = "", 0, len(data) % 2 == 1
    while at < len(units):
        unit = units[at]
        is_high, next_unit = 0xD800 <= unit < 0xDC00, units[at + 1] if at + 1 < len(units) else 0
        at += 1
        if is_high and 0xDC00 <= next_unit < 0xE000:
            text += chr(0x10000 + ((unit - 0xD800) << 10) + next_unit - 0xDC00)
            at += 1
        elif 0xD800 <= unit < 0xE000:
            text += "\ufffd"
            is_odd = is_odd and not (is_high and at == len(units))
        else:
            text += chr(unit)
    return text + "\ufffd" * is_odd


def marked(data, charset):
    """The text of bytes in a charset, or in that of their byte order mark."""
    for mark, other in MARKS:
        if data.startswith(mark):
            return decoded(data[len(mark) :], other)
    return decoded(data, charset)


# Transfer encodings.


def base64_bytes(data, dropped):
    """The bytes of Base64, without what is dropped."""
    left = bytes(it for it in data if it not in dropped)
    out = b""
    for number, at in enumerate(range(0, len(left), 4)):
        group = left[at : at + 4]
        letters = group.rstrip(b"=")
        if len(group) < 4 or len(letters) < 2 or any(it not in LETTERS for it in letters):
            raise Refused(f"Base64 decode error: group {number} is no Base64 group")
        value = 0
        for it in letters + b"A" * (4 - len(letters)):
            value = value * 64 + LETTERS.index(it)
        out += value.to_bytes(3, "big")[: len(letters) - 1]
    return out


def quoted_printable_bytes(data):
    """The bytes of quoted-printable."""
    out = b""
    for line, end in re.findall(rb"([^\n]*?)(\r?\n|\Z)", data):
        kept = line.rstrip(b" \t")
        if kept.endswith(b"="):
            kept, end = kept[:-1], b""
        out += re.sub(rb"=([0-9A-Fa-f]{2})", lambda found: bytes([int(found[1], 16)]), kept) + end
    return out


# Values.


def raw_text(data):
    """The text of bytes: UTF-8, or otherwise Latin-1."""
    try:
        return data.decode("utf-8")
    except UnicodeDecodeError:
        return data.decode("latin-1")


def word_text(word):
    """The text of an encoded word, what is between `=?` and `?=`; or None."""
    pieces = word.split("?", 2)
    charset = charset_of(pieces[0])
    if len(pieces) < 3 or charset is None or pieces[1] not in ("B", "b", "Q", "q"):
        return None
    if pieces[1] in "Bb":
        try:
            return decoded(base64_bytes(pieces[2].encode(), b"\r\n"), charset)
        except Refused:
            return None
    text = pieces[2].replace("_", " ")
    front = text.rstrip(WHITE)
    return decoded(quoted_printable_bytes(front.encode()) + text[len(front) :].encode(), charset)


def line_tokens(line):
    """The tokens of a line: kind and text."""
    at = 0

    def outside(text):
        return ("white" if not text.strip(WHITE) else "text", text)

    while True:
        begin = line.find("=?", at)
        if begin < 0:
            yield outside(line[at:])
            return
        if begin > 0 and line[begin - 1] not in BESIDE:
            yield "text", line[at : begin + 2]
            at = begin + 2
            continue
        yield outside(line[at:begin])
        end = line.find("?=", begin + 2)
        while end >= 0 and end + 2 < len(line) and line[end + 2] not in BESIDE:
            end = line.find("?=", end + 1)
        if end < 0:
            yield "text", "=?"
            at = begin + 2
            continue
        text = word_text(line[begin + 2 : end])
        yield ("text", line[begin : end + 2]) if text is None else ("word", text)
        at = end + 2
        if at == len(line):
            return


def value_of(data):
    """The text that a value shows."""
    lines = raw_text(data).split("\n")
    last = lines.pop()
    lines = [line[:-1] if line.endswith("\r") else line for line in lines] + ([last] if last else [])
    tokens = []
    for number, line in enumerate(lines):
        tokens += [("line", " ")] * bool(number) + list(line_tokens(line.lstrip(WHITE)))
    out, before = "", "start"
    for at, (kind, text) in enumerate(tokens):
        following = [it for it, _ in tokens[at + 1 : at + 3]] + ["end", "end"]
        is_held = kind == "white" and before == "word" or kind == "line" and before in ("word", "held")
        is_released = following[0] == "text" or kind == "white" and following[:2] == ["line", "text"]
        out += text if not is_held or is_released else ""
        before = "held" if kind == "white" and is_held else kind
    return out


# Values with parameters.


def segments(text):
    """The segments of a text."""
    found, quoted, at = [""], False, 0
    while at < len(text):
        sign = text[at]
        if quoted and sign == "\\":
            found[-1] += text[at : at + 2]
            at += 2
            continue
        quoted ^= sign == '"'
        if sign == ";" and not quoted:
            found.append("")
        else:
            found[-1] += sign
        at += 1
    return found


def unquoted(text):
    """A text without its quotes."""
    if len(text) < 2 or text[0] != '"' or text[-1] != '"':
        return text
    return re.sub(r"\\(.?)", r"\1", text[1:-1], flags=re.S)


def number_of(name):
    """The base and the section number of a name, or None."""
    base, star, digits = name.rpartition("*")
    is_number = star and re.fullmatch(r"\+?[0-9]+", digits) and int(digits) < 2**64
    return (base, int(digits)) if is_number else None


def percent(text):
    """The bytes of a text with percent pairs."""
    return re.sub(rb"%([0-9A-Fa-f]{2})", lambda found: bytes([int(found[1], 16)]), text.encode())


def parameters(pairs):
    """The parameters of pairs."""
    last = dict(pairs)
    extended = {key[:-1] for key in last if key.endswith("*") and key[:-1] not in last}
    texts, sections = dict(last), {}
    for name in extended:
        candidates = [it for it in extended if it.endswith("*0") and name.startswith(it[:-1])]
        source = max(candidates, key=lambda it: (it + "*").encode(), default=name)
        charset = charset_of(last[source + "*"].split("'")[0])
        if charset is None:
            continue
        pieces = last[name + "*"].split("'", 2)
        data = percent(last[name + "*"] if source != name else pieces[2] if len(pieces) == 3 else "")
        del texts[name + "*"]
        if number_of(name):
            sections[name] = (charset, data)
        else:
            texts[name] = decoded(data, charset)
    return joined(texts, sections)


def joined(texts, sections):
    """The parameters, with continuations joined."""
    numbered = {it: number_of(it) for it in [*texts, *sections] if number_of(it)}
    bases = {base for base, number in numbered.values() if number == 0 and base not in texts}
    used, values = set(), {}
    for base in bases:
        value, run, charset, number = "", b"", None, 0
        while (name := f"{base}*{number}") in texts or name in sections:
            used.add(name)
            if name in sections:
                charset, run = sections[name][0], run + sections[name][1]
            else:
                value += (decoded(run, charset) if charset else "") + texts[name]
                run, charset = b"", None
            number += 1
        values[base] = value + (decoded(run, charset) if charset else "")
    found = {name: text for name, text in texts.items() if name not in used} | values
    return found | {name: decoded(data, charset) for name, (charset, data) in sections.items() if name not in used}


def with_parameters(text):
    """The value and the parameters of a text."""
    value, *rest = segments(text)
    pairs = [it.partition("=") for it in rest if "=" in it]
    return value.strip(WHITE), parameters((lower(key.strip(WHITE)), unquoted(it.strip(WHITE))) for key, _, it in pairs)


def sorted_items(found):
    """The items of parameters."""
    return [it.encode() for pair in sorted(found.items(), key=lambda pair: pair[0].encode()) for it in pair]


def type_items(data):
    """The items of a type."""
    value, found = with_parameters(data.decode())
    return [lower(value).encode(), found.get("charset", "us-ascii").encode(), *sorted_items(found)]


def disposition_items(data):
    """The items of a disposition."""
    value, found = with_parameters(data.decode())
    kind = lower(value) or "inline"
    names = [kind] if kind in ("inline", "attachment", "form-data") else ["extension", kind.encode()]
    return [*names, *sorted_items(found)]


# Bodies.


def body_items(kind, label, data):
    """The items of a body."""
    kind = kind if kind in (b"base64", b"quoted-printable", b"8bit", b"binary") else b"7bit"
    try:
        if kind == b"base64":
            bytes_ = base64_bytes(data, b" \t\n\x0c\r")
        else:
            bytes_ = quoted_printable_bytes(data) if kind == b"quoted-printable" else data
    except Refused as error:
        return [kind.decode(), data, *refusal(error), *refusal(error)]
    charset = charset_of(label.decode())
    text = marked(bytes_, charset) if charset else "".join(chr(it) if it < 128 else "\ufffd" for it in bytes_)
    return [kind.decode(), data, bytes_, text.encode()]


# Dates and ids.

MONTHS = [name.lower() for name in calendar.month_name[1:]]
ZONES = {"utc": 0, "ut": 0, "gmt": 0, "edt": -400, "est": -500, "cdt": -500, "cst": -600, "mdt": -600, "mst": -700, "pdt": -700, "pst": -800}
ZONES |= {letter: -100 * number for number, letter in enumerate("abcdefghiklm", 1)}
ZONES |= {letter: 100 * number for number, letter in enumerate("nopqrstuvwxy", 1)} | {"z": 0}


def number(word, limit, why=None):
    """A number below the limit, or None; or a refusal."""
    if re.fullmatch(r"\+?[0-9]+", word) and int(word) < limit:
        return int(word)
    if why:
        raise Refused(f"Invalid {why}")
    return None


def month_of(word):
    """The number of a month, from 0."""
    names = [at for at, name in enumerate(MONTHS) if lower(word) in (name, name[:3])]
    if not names:
        raise Refused("Unrecognized month")
    return names[0]


def year_of(word):
    """A year."""
    year = number(word, 2**32, "year")
    year += 2000 if year < 70 else 1900 if year < 100 else 0
    if year < 1970:
        raise Refused("Disallowed year")
    return year


def zone_of(word):
    """A zone."""
    if re.fullmatch(r"[+-]?[0-9]+", word) and -2400 <= int(word) <= 2400:
        return int(word)
    if lower(word) not in ZONES:
        raise Refused("Invalid timezone")
    return ZONES[lower(word)]


def days_before(year):
    """The days from 1970 to a year."""
    leaps = lambda it: it // 4 - it // 100 + it // 400
    return 365 * (year - 1970) + leaps(year - 1) - leaps(1969)


def date_items(data):
    """The items of a date."""
    words = [it for it in re.split("[ :]", data.decode()) if it]
    while words and number(words[0], 256) is None:
        words.pop(0)
    words = iter(words[:7])
    seconds = 0
    try:
        word = next(words, None)
        if word is None:
            return ["0"]
        day = number(word, 256)
        if not 1 <= day <= 31:
            raise Refused("Invalid day")
        month = month_of(next(words))
        year = year_of(next(words))
        days = sum(calendar.mdays[1 : month + 1]) + (month > 1 and calendar.isleap(year))
        seconds = 86400 * (days_before(year) + days + day - 1)
        for size, name in ((3600, "hour"), (60, "minute"), (1, "second")):
            seconds += size * number(next(words), 256, name)
        zone = zone_of(next(words))
        offset = abs(zone) // 100 * 3600 + abs(zone) % 100 * 60
        return [str(seconds - offset if zone > 0 else seconds + offset)]
    except StopIteration:
        return [str(seconds)]
    except Refused as error:
        return refusal(error)


def id_items(data):
    """The items of a list of ids."""
    text, found = data.decode().lstrip(WHITE), []
    while text:
        if text[0] != "<":
            return refusal("Message IDs must start with <")
        if ">" not in text:
            return refusal("Message IDs must end with >")
        found.append(text[1 : text.index(">")].encode())
        text = text[text.index(">") + 1 :].lstrip(WHITE)
    return found


# Mails.


def header_at(data, at):
    """The key and the value of the header that begins there, and where it ends."""
    key = re.compile(rb"[^:\n]*").match(data, at)
    if data[key.end() : key.end() + 1] != b":":
        return key[0], b"", min(key.end() + 1, len(data))
    line_end = re.compile(rb"\n(?![ \t])").search(data, key.end())
    end = line_end.end() if line_end else len(data)
    value = data[key.end() + 1 : line_end.start() if line_end else end]
    return key[0], value.lstrip(b" ").rstrip(b"\r\n"), end


def block_of(data):
    """The headers of a mail, each a key and a value, and where its body begins."""
    headers, at = [], 0
    while at < len(data):
        if blank := re.compile(rb"\r?\n").match(data, at):
            return headers, blank.end()
        if data[at : at + 1] in (b"\r", b" "):
            raise Refused(LONE_CR if data[at : at + 1] == b"\r" else SPACE)
        key, value, at = header_at(data, at)
        headers.append((key, value))
    return headers, at


def first(headers, name):
    """The text of the first value with a name, or None."""
    for key, value in headers:
        if lower(key.decode("latin-1")) == name:
            return value_of(value)
    return None


def delimiter(data, dash, start, begin):
    """Where the first delimiter at or after `begin` is, and where what it ends does; a line begins at `start`."""
    at = data.find(dash, begin)
    while at >= 0 and at != start and data[at - 1 : at] != b"\n":
        at = data.find(dash, at + 1)
    if at < 0:
        return None
    end = at
    if end > start:
        end -= 1
        end -= end > start and data[end - 1 : end] == b"\r"
    return at, end


def parts_of(data, body, boundary):
    """The ranges of the body and of the parts."""
    dash = b"--" + boundary.encode()
    found = delimiter(data, dash, body, body)
    if found is None:
        return (body, body), []
    preamble, parts, is_first = (body, found[1]), [], True
    while found:
        after = found[0] + len(dash)
        if not is_first and (len(data) - after < 2 or data[after : after + 2] == b"--"):
            break
        start = data.find(b"\n", after) + 1
        if start == 0:
            break
        found = delimiter(data, dash, start, start)
        parts.append((start, found[1] if found else len(data)))
        is_first = False
    return preamble, parts


def node_items(data, level, in_digest):
    """The items of a message and of its parts."""
    if level > 100:
        raise Refused("Recursion limit reached")
    headers, at = block_of(data)
    text = first(headers, "content-type")
    mimetype, found = with_parameters(text) if text is not None else ("message/rfc822" if in_digest else "text/plain", {})
    mimetype, boundary = lower(mimetype), found.get("boundary")
    body, parts = (at, len(data)), []
    if mimetype.startswith("multipart") and boundary is not None:
        body, parts = parts_of(data, at, boundary)
    inner = [it for start, end in parts for it in node_items(data[start:end], level + 1, mimetype == "multipart/digest")]
    charset = found.get("charset", "us-ascii").encode()
    encoding = lower(first(headers, "content-transfer-encoding") or "").encode()
    items = ["part", str(len(parts)), mimetype.encode(), charset]
    for key, value in headers:
        items += ["header", key.decode("latin-1").encode(), value_of(value).encode()]
    return items + body_items(encoding, charset, data[body[0] : body[1]]) + inner


def mail_items(data):
    """The items of a mail."""
    try:
        return node_items(data, 0, False)
    except Refused as error:
        return refusal(error)


def value_items(data):
    """The items of the value of a header, whose bytes after the colon are given."""
    return [value_of(header_at(b"X:" + data, 0)[1]).encode()]


def utf8_items(data):
    """The items of a value that must be UTF-8."""
    value = header_at(b"X:" + data, 0)[1]
    try:
        value.decode()
    except UnicodeDecodeError:
        return refusal(NOT_UTF_8)
    return [value_of(value).encode()]


# By call: what its inputs give.
CALLS = {
    "get_value": value_items,
    "get_value_utf8": utf8_items,
    "parse_content_type": type_items,
    "parse_content_disposition": disposition_items,
    "body": body_items,
    "dateparse": date_items,
    "msgidparse": id_items,
    "mail": mail_items,
}
