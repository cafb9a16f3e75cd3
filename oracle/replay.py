"""The suite in the Rust crate, and in Python's email and codecs, where these have the call.

A row that differs has the mark `crate:NAME` or `python:NAME`, where NAME is a name of the tables of
docs/DIFFERENCES.md, and a row with that mark must differ.
"""
import base64
import email
import email.policy
import email.utils
import glob
import os
import quopri
import re
import subprocess

from suite import DATA, TOP, rows_in


def unhex(digits):
    return b"" if digits == "-" else bytes.fromhex(digits)


class Lines:
    """The lines of an answer of the oracle, taken one after another."""

    def __init__(self, text):
        self.lines = text.split("\n")
        self.at = 0

    def take(self, *words):
        """The rest of the next line where it begins with one of these words, or else nothing."""
        line = self.lines[self.at] if self.at < len(self.lines) else ""
        for word in words:
            if line == word or line.startswith(word + " "):
                self.at += 1
                return line[len(word) + 1 :]
        return None

    def outcome(self, word):
        """A text, or a refusal."""
        rest = self.take(word)
        kind, _, text = rest.partition(" ")
        return [unhex(text)] if kind == "ok" else ["error", text.encode()]

    def pairs(self, word):
        items = []
        while (rest := self.take(word)) is not None:
            items += [unhex(it) for it in rest.split(" ")]
        return items

    def ctype(self):
        return [unhex(self.take("type")), unhex(self.take("charset")), *self.pairs("param")]

    def disposition(self):
        kind, _, name = self.take("disposition").partition(" ")
        return [kind, *([unhex(name)] if name else []), *self.pairs("dparam")]

    def body(self, raw):
        kind = self.take("kind")
        return [kind, raw, *self.outcome("decoded"), *self.outcome("text")]


def dates_of(lines):
    rest = lines.take("date")
    kind, _, text = rest.partition(" ")
    return [text] if kind == "ok" else ["error", text.encode()]


def ids_of(lines):
    rest = lines.take("ids")
    if rest.startswith("err "):
        return ["error", rest[4:].encode()]
    return [unhex(lines.take("id")) for _ in range(int(rest.removeprefix("ok ")))]


def mail_of(lines, raw, items_of):
    """What is written of each node of a mail, or the refusal."""
    rest = lines.take("mail")
    if rest.startswith("err "):
        return ["error", rest[4:].encode()]
    items = []
    while (node := lines.take("node")) is not None:
        items += ["part", node.rpartition(" ")[2], *items_of(*node_of(lines, raw))]
    return items


def node_of(lines, raw):
    """The type of a node, its headers, its disposition, its body, and the text of that."""
    body = b""
    while (place := lines.take("at")) is not None:
        name, start, end = place.split(" ")
        if name == "body":
            body = raw[int(start) : int(end)]
        lines.take("bytes", "block", "body")
    headers = []
    for _ in range(int(lines.take("headers"))):
        fields = {}
        while (word := lines.lines[lines.at].partition(" ")[0]) in ("key", "raw", "name", "ref", "value", "utf8"):
            if word in fields:
                break
            fields[word] = lines.take(word)
        headers += ["header", unhex(fields["name"]), unhex(fields["value"])]
        while lines.take("date", "ids", "id", "idtext") is not None:
            pass
    ctype, disposition, body = lines.ctype(), lines.disposition(), lines.body(body)
    lines.take("getbodyraw")
    return ctype, headers, disposition, body, lines.outcome("getbody")


def plain_items(ctype, headers, _disposition, body, _text):
    """What `mail` writes of a node."""
    return [*ctype[:2], *headers, *body]


def items_under(ctype, headers, disposition, _body, text):
    """What `mail_under` writes of a node."""
    return [*ctype, *headers, *disposition, *text]


def header_of(lines):
    """What the lines of the header `X` say of its value."""
    lines.take("header")
    fields = {word: lines.take(word) for word in ("key", "raw", "name", "ref", "value", "utf8")}
    kind, _, text = fields["utf8"].partition(" ")
    return [unhex(text)] if kind == "ok" else ["error", text.encode()]


def front_of(lines):
    """The lines of the header at the front, by their words, and its length; or the refusal."""
    rest = lines.take("header")
    if rest.startswith("err "):
        return {}, ["error", rest[4:].encode()]
    return fields_of(lines), [rest.removeprefix("ok ")]


def fields_of(lines):
    fields = {word: lines.take(word) for word in ("key", "raw", "name", "ref", "value", "utf8")}
    while lines.take("date", "ids", "id", "idtext") is not None:
        pass
    return fields


def bytes_of(fields):
    return [unhex(fields[word]) for word in ("key", "raw") if fields]


def header_bytes(lines, _row):
    fields, rest = front_of(lines)
    return [*bytes_of(fields), *rest]


def header_texts(lines, _row):
    fields, _ = front_of(lines)
    kind, _, text = fields["utf8"].partition(" ")
    strict = [unhex(text)] if kind == "ok" else ["error", text.encode()]
    return [unhex(fields["name"]), unhex(fields["value"]), *strict]


def key_ref(lines, _row):
    kind, _, text = front_of(lines)[0]["ref"].partition(" ")
    return [kind, unhex(text)]


def block_of(lines, _row):
    rest = lines.take("headers")
    if rest.startswith("err "):
        return ["error", rest[4:].encode()]
    _, count, end = rest.split(" ")
    return [end, *(it for _ in range(int(count)) for it in bytes_of(fields_of(lines)))]


def values_found(lines, row):
    """The first value with a name, or all of them, in the list and in the block."""
    first = [line[12:] for line in lines.lines if line.startswith("first value ")][0]
    found = [unhex(line[10:]) for line in lines.lines if line.startswith("all value ")]
    if row.call == "get_first_value":
        found = ["none" if first == "none" else unhex(first)]
    return ["list", *found, "block", *found]


# By call: the oracle's command, its input, and what its lines say.
ORACLE = {
    "get_value": ("value", lambda row: row.inputs[0], lambda lines, row: [unhex(lines.take("value"))]),
    "get_value_utf8": ("header", lambda row: b"X:" + row.inputs[0], lambda lines, row: header_of(lines)),
    "dateparse": ("date", lambda row: row.inputs[0], lambda lines, row: dates_of(lines)),
    "msgidparse": ("msgid", lambda row: row.inputs[0], lambda lines, row: ids_of(lines)),
    "parse_content_type": ("ctype", lambda row: row.inputs[0], lambda lines, row: lines.ctype()),
    "parse_content_disposition": ("dispo", lambda row: row.inputs[0], lambda lines, row: lines.disposition()),
    "body": ("body", lambda row: b"\0".join(b"" if it == "none" else it for it in row.inputs),
             lambda lines, row: lines.body(row.inputs[2])),
    "parse_header": ("header", lambda row: row.inputs[0], header_bytes),
    "header": ("header", lambda row: row.inputs[0], header_texts),
    "get_key": ("header", lambda row: row.inputs[0], lambda lines, row: [unhex(front_of(lines)[0]["name"])]),
    "get_key_ref": ("header", lambda row: row.inputs[0], key_ref),
    "parse_headers": ("headers", lambda row: row.inputs[0], block_of),
    "get_first_value": ("find", lambda row: row.inputs[1] + b"\0" + row.inputs[0], values_found),
    "get_all_values": ("find", lambda row: row.inputs[1] + b"\0" + row.inputs[0], values_found),
    "debug_headers": ("debug", lambda row: row.inputs[0], lambda lines, row: [unhex(lines.take("debug"))]),
    "mail": ("dump", lambda row: row.inputs[0], lambda lines, row: mail_of(lines, row.inputs[0], plain_items)),
    "value_under": ("value", lambda row: row.inputs[1], lambda lines, row: [unhex(lines.take("value"))]),
    "type_under": ("ctype", lambda row: row.inputs[1], lambda lines, row: lines.ctype()),
    "disposition_under": ("dispo", lambda row: row.inputs[1], lambda lines, row: lines.disposition()),
    "body_under": ("body", lambda row: b"\0".join(b"" if it == "none" else it for it in row.inputs[1:]),
                   lambda lines, row: text_of(lines.body(row.inputs[3]))),
    "mail_under": ("dump", lambda row: row.inputs[1], lambda lines, row: mail_of(lines, row.inputs[1], items_under)),
}


def text_of(body):
    """The text of a body, or the refusal."""
    return body[-2:] if body[-2] == "error" else body[-1:]


def has_call(row, calls):
    """Whether there is the call of a row. Neither the crate nor Python takes tables that are made up."""
    return row.call in calls and (not row.call.endswith("_under") or row.inputs[0] == "all")


def by_oracle(program, rows):
    """What the crate returns for each row."""
    asked = []
    for row in rows:
        command, data, _ = ORACLE[row.call]
        data = data(row)
        asked.append(f"{command} {len(data)}\n".encode() + data)
    ran = subprocess.run([program, "batch"], input=b"".join(asked), stdout=subprocess.PIPE, check=True)
    answers = ran.stdout.decode().split("\n.\n")
    return [ORACLE[row.call][2](Lines(answer.removeprefix(".\n")), row) for row, answer in zip(rows, answers)]


def as_bytes(text):
    return str(text).encode("utf-8", "surrogateescape")


def python_value(raw):
    message = email.message_from_bytes(b"X:" + raw + b"\n\n", policy=email.policy.default)
    return [as_bytes(message["X"])]


def python_type(text):
    message = email.message_from_bytes(b"Content-Type: " + text + b"\n\n")
    kind, *pairs = message.get_params(header="content-type", failobj=[("", "")])
    values = sorted((name.lower().encode(), email.utils.collapse_rfc2231_value(value).encode()) for name, value in pairs)
    charset = dict(values).get(b"charset", b"us-ascii")
    return [kind[0].lower().encode(), charset, *(it for pair in values for it in pair)]


def python_date(text):
    try:
        return [str(int(email.utils.parsedate_to_datetime(text.decode()).timestamp()))]
    except (TypeError, ValueError):
        return ["error"]


def python_addresses(raw):
    message = email.message_from_bytes(b"To: " + raw + b"\n\n", policy=email.policy.default)
    items = []
    for group in message["To"].groups:
        if group.display_name is not None:
            items += ["group", as_bytes(group.display_name), str(len(group.addresses))]
        for it in group.addresses:
            items += ["mailbox", as_bytes(it.display_name), as_bytes(it.addr_spec)]
    return items


def python_utf_7(label, texts):
    return [it.decode(label.decode().strip(), "replace").encode("utf-8", "surrogatepass") for it in texts]


# By call: what Python returns for the inputs.
PYTHON = {
    "addresses": lambda row: python_addresses(row.inputs[0]),
    "get_value": lambda row: python_value(row.inputs[0]),
    "parse_content_type": lambda row: python_type(row.inputs[0]),
    "date_of": lambda row: python_date(row.inputs[0]),
    "decode_with_utf_7": lambda row: python_utf_7(row.inputs[0], row.inputs[1:]),
    "decode_base64": lambda row: [base64.b64decode(row.inputs[0])],
    "decode_quoted_printable": lambda row: [quopri.decodestring(row.inputs[0])],
}


def by_python(row):
    try:
        return PYTHON[row.call](row)
    except (ValueError, LookupError, AttributeError, TypeError, RecursionError) as error:
        return ["error", str(error).encode()]


def same(found, row):
    """Whether an answer is the wanted one. Python's errors have texts of their own."""
    return found == row.wanted or (found[:1] == row.wanted[:1] == ["error"] and len(found) == 1)


def known_names():
    """The names of differences that the page lists."""
    with open(f"{TOP}/docs/DIFFERENCES.md", encoding="utf-8") as file:
        return set(re.findall(r"^\| `([a-z0-9-]+)` \|", file.read(), re.M))


def faults(kind, rows, answers):
    """The rows of which the marks do not say whether they differ, with what was found."""
    names = known_names()
    for row, found in zip(rows, answers):
        marks = row.marked(kind)
        if same(found, row) == bool(marks) or not names.issuperset(marks):
            yield f"{row.place}: {'returns the same, but is marked' if marks else 'differs'} {marks}: {found}"[:2000]


def rows_of(calls, left_out):
    """The rows of the suite with one of the calls, except those of files that match."""
    files = sorted(it for it in glob.glob(f"{DATA}/*.txt") if not re.search(left_out, it))
    return [row for file in files for row in rows_in(file) if has_call(row, calls)]
