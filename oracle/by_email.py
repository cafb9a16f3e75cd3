#!/usr/bin/env python3
"""Writes what Python's email package reads of mails as JSON, one object to a line.

The members are those that rocktray json writes, but for `start`, `end` and `size`, which the package does not
know. Each FILE is a mail, and with --mbox a mailbox; without a FILE the one on standard input is read. A mail
that the package fails on is an object with the one member `error`.
"""
import argparse
import datetime
import email
import email.header
import email.headerregistry
import email.message
import email.policy
import email.utils
import json
import re
import sys


def codec(label):
    """The name that Python has for the charset that the Encoding Standard reads under a label."""
    return "windows-1252" if label.lower() in ("us-ascii", "iso-8859-1") else label


def without_surrogates(text):
    """A text whose surrogates are bytes; bytes that are not UTF-8 are Latin-1 by docs/RULES.md."""
    raw = text.encode("utf-8", "surrogateescape")
    try:
        return raw.decode("utf-8")
    except UnicodeDecodeError:
        return raw.decode("latin-1")


def shown(value):
    """The text of a header's value as it is read further: as an id, a date or a field of a report."""
    if value is None:
        return None
    unfolded = re.sub(r"\r?\n[ \t]*", " ", without_surrogates(value))
    pieces = email.header.decode_header(unfolded)
    return "".join(
        piece if isinstance(piece, str) else piece.decode(codec(charset) if charset else "raw-unicode-escape")
        for piece, charset in pieces
    )


def windows(raw):
    """The text of bytes in windows-1252 as the Encoding Standard has it: its five free bytes are controls."""
    return "".join(bytes([it]).decode("cp1252") if it not in b"\x81\x8d\x8f\x90\x9d" else chr(it) for it in raw)


def header_text(value):
    """The text of a header's value as people see it: only line ends are unfolded, and bytes that are not UTF-8 are
    windows-1252. The bytes between two encoded words are read together."""
    if value is None:
        return None
    unfolded = re.sub(r"\r?\n(?=[ \t])", "", value).lstrip(" \t")
    pieces = email.header.decode_header(unfolded.encode("utf-8", "surrogateescape").decode("latin-1"))
    text = ""
    for piece, charset in pieces:
        if charset:
            text += piece.decode(codec(charset))
        else:
            raw = piece.encode("latin-1") if isinstance(piece, str) else piece
            try:
                text += raw.decode("utf-8")
            except UnicodeDecodeError:
                text += windows(raw)
    return text


def raw_value(mail, name):
    """The value of the first header with this name, or None; bytes above 0x7F are surrogates."""
    return next((value for key, value in mail.raw_items() if key.lower() == name), None)


def value_of(mail, name):
    """The text of the first header with this name, or None."""
    return header_text(raw_value(mail, name))


def shown_name(name):
    """A display name as people see it: without the quotes or the apostrophes around it."""
    return name[1:-1] if len(name) > 1 and name[0] == name[-1] and name[0] in "\"'" else name


def mailbox_object(address):
    """The object of a mailbox, or of what has no `@` and so is no address."""
    if "@" not in address.addr_spec:
        return {"unknown": without_surrogates(str(address))}
    name = shown_name(without_surrogates(address.display_name))
    return {"name": name or None, "address": without_surrogates(address.addr_spec)}


def with_comment(address, mailbox):
    """The object of a mailbox. If it has no display name, its first comment is one, as for `email.utils.parseaddr`."""
    found = mailbox_object(address)
    if "address" in found and not address.display_name and mailbox.comments:
        found["name"] = shown_name(without_surrogates(shown(mailbox.comments[0])).strip()) or None
    return found


def addresses_of(mail, name):
    """The addresses in all headers with this name, which the package decodes after it has cut them apart. Whitespace
    between two encoded words goes (RFC 2047, section 6.2), which the package keeps in a name."""
    found = []
    for key, value in mail.raw_items():
        if key.lower() == name:
            joined = re.sub(r"\r?\n", "", re.sub(r"(?<=\?=)\s+(?==\?)", "", value))
            parsed = email.headerregistry.AddressHeader.value_parser(joined).addresses
            for group, element in zip(email.policy.default.header_factory(key, joined).groups, parsed):
                members = [with_comment(*both) for both in zip(group.addresses, element.all_mailboxes)]
                if group.display_name is not None:
                    members = [{"group": shown_name(without_surrogates(group.display_name)), "members": members}]
                found += members
    return found


def ids(value, needs_at):
    """The message ids of a value without its comments, each with an `@` where one is needed, or the whole value."""
    text = without_comments(shown(value) or "")
    if "<" not in text:
        return re.findall(r"^\s*([^\s>\",;]*@[^\s>\",;]*)\s*$", text)
    found = map(str.strip, re.findall(r"<([^<>]*)>", text))
    return [one for one in found if ("@" in one if needs_at else one)]


def seconds(value):
    """The seconds of a date, or None if there is none; a date without a zone is UTC, and so is one with `-0000`."""
    if value is None:
        return None
    found = email.utils.parsedate_to_datetime(str(value))
    return int((found if found.tzinfo else found.replace(tzinfo=datetime.timezone.utc)).timestamp())


def has_parts(part):
    """Whether a part has parts of its own; a forwarded mail is not entered."""
    return part.get_content_maintype() == "multipart" and part.is_multipart()


def walk(mail, path):
    """The parts of a mail with their paths, each before its own parts."""
    yield path, mail
    if has_parts(mail):
        for number, part in enumerate(mail.get_payload(), 1):
            yield from walk(part, f"{path}.{number}" if path else str(number))


def parts_of(mail):
    """The parts of a mail with their paths, as IMAP numbers parts."""
    return walk(mail, "" if has_parts(mail) else "1")


def mails_inside(mail, path):
    """The mails in the parts of a mail, each before those inside it, with the paths of these parts."""
    for path_, part in walk(mail, path):
        if part.get_content_type() == "message/rfc822" and part.is_multipart():
            inner = part.get_payload(0)
            yield path_, inner
            yield from mails_inside(inner, path_ if has_parts(inner) else f"{path_}.1")


def parts_inside(mail, path):
    """The parts of a mail inside the part with this path, with their paths. The mail itself, if it has parts, is the part
    `0` there."""
    if not has_parts(mail):
        return walk(mail, f"{path}.1")
    (_path, whole), *parts = walk(mail, path)
    return [(f"{path}.0", whole), *parts]


def all_parts(mail):
    """The parts of a mail, and then those of the mails inside it, with their paths, and before these the path of the
    part that contains the mail, or None."""
    yield from ((None, *found) for found in parts_of(mail))
    for path, inner in mails_inside(mail, "" if has_parts(mail) else "1"):
        yield from ((path, *found) for found in parts_inside(inner, path))


def charset_of(part):
    """The charset of a part."""
    return email.utils.collapse_rfc2231_value(part.get_param("charset", "us-ascii"))


def params_of(part):
    """The parameters of the type of a part."""
    return {key.lower(): email.utils.collapse_rfc2231_value(value) for key, value in part.get_params([])[1:]}


def file_name(part):
    """The name of a part's file; an empty one counts as none."""
    return part.get_filename() or email.utils.collapse_rfc2231_value(part.get_param("name", "")) or None


def is_file(part):
    """Whether a part is a file."""
    return not has_parts(part) and (part.get_content_disposition() == "attachment" or file_name(part) is not None)


def body_of(part):
    """The decoded bytes of the body of a part."""
    if part.is_multipart():
        return part.as_bytes() if part.get_content_maintype() != "multipart" else b""
    return part.get_payload(decode=True)


def encoding_of(part):
    """The name of the transfer encoding of a part, one for those of uuencode."""
    name = (part.get("content-transfer-encoding") or "7bit").lower()
    return "x-uuencode" if name in ("uuencode", "x-uue", "uue") else name


def text_of(part, body):
    """The text of a part and the name of its charset, or None where it is no text or marked as an attachment. A
    multipart without parts is a text."""
    is_text = part.get_content_maintype() == "text" or part.get_content_maintype() == "multipart" and not has_parts(part)
    if not is_text or part.get_content_disposition() == "attachment":
        return {"text": None}
    label = charset_of(part)
    if label.lower() == "us-ascii":
        label = "utf-8" if is_utf8(body) else "windows-1252"
    return {"text": body.decode(codec(label), "replace"), "text_charset": label}


def is_utf8(body):
    """Whether bytes are UTF-8."""
    try:
        body.decode("utf-8")
    except UnicodeDecodeError:
        return False
    return True


def content_id(part):
    """The first id in the first Content-ID of a part, which needs no `@`, or None."""
    return next(iter(ids(raw_value(part, "content-id"), False)), None)


def part_object(inside, path, part, report):
    """The object of a part, of which a report was read."""
    body = body_of(part)
    return {
        "path": path,
        "inside": inside,
        "type": part.get_content_type(),
        "charset": charset_of(part),
        "params": params_of(part),
        "disposition": part.get_content_disposition(),
        "file_name": file_name(part),
        "content_id": content_id(part),
        "attachment": is_file(part),
        "extracted": is_saved(part),
        "encoding": encoding_of(part),
        "decoded_size": len(body),
        "report": report,
        "headers": [[name, header_text(value)] for name, value in part.raw_items()],
        **text_of(part, body),
    }


def date_of(mail):
    """The member of the date, and the one of its error."""
    try:
        return {"date": seconds(raw_value(mail, "date"))}
    except (TypeError, ValueError, OverflowError, IndexError) as error:
        return {"date": None, "date_error": str(error)}


def mail_object(data):
    """The object of a mail."""
    mail = email.message_from_bytes(data)
    found = {"subject": value_of(mail, "subject")}
    for name in ("from", "to", "cc", "bcc", "reply_to", "sender"):
        found[name] = addresses_of(mail, name.replace("_", "-"))
    found.update(date_of(mail))
    for name in ("message_id", "in_reply_to", "references"):
        found[name] = ids(raw_value(mail, name.replace("_", "-")), name != "message_id")
    anywhere = list(parts_anywhere(data))
    found["bounced_id"] = bounced_id(anywhere[0][2])
    found["recipients"] = recipients(mail, [part for inside, _path, part in anywhere if inside is None])
    reports = {(inside, path): report_of(part) for inside, path, part in anywhere}
    found["parts"] = [
        part_object(inside, path, part, reports.get((inside, path))) for inside, path, part in all_parts(mail)
    ]
    return found


# a line `From `, with a time as asctime writes it, as docs/RULES.md says
SEPARATOR = (
    rb"From (?:[^\n]* )?(?:Sun|Mon|Tue|Wed|Thu|Fri|Sat)\s+(?:Jan|Feb|Mar|Apr|May|Jun|Jul|Aug|Sep|Oct|Nov|Dec)\s+"
    rb"\d\d?\s+\d\d:\d\d(?::\d\d)?\s+(?:(?:[+-]\d{4}|[A-Za-z]+)\s+)?\d{4}(?!\S)[^\n]*(?:\n|\Z)"
)


def mails_of(mailbox):
    """The mails of a mailbox, cut as docs/RULES.md says; text before the first is left out."""
    starts = list(re.finditer(rb"(?:\A|(?:\A|(?<=\n))\r?\n)" + SEPARATOR, mailbox))
    last = re.search(rb"(?<=\n)\r?\n\Z", mailbox)
    ends = [found.start() for found in starts[1:]] + [last.start() if last else len(mailbox)]
    for found, end in zip(starts, ends):
        yield mailbox[found.end():end]


def write_lines(data, is_mailbox):
    """Writes the line of each mail of an input."""
    for mail in mails_of(data) if is_mailbox else [data]:
        try:
            line = json.dumps(mail_object(mail), ensure_ascii=False, separators=(",", ":"))
        except Exception as error:  # what the package raises is not said anywhere
            line = json.dumps({"error": f"{type(error).__name__}: {error}"})
        sys.stdout.buffer.write(line.encode("utf-8", "surrogateescape") + b"\n")


SHOWN_TYPES = ("text/plain", "text/html")


def closed(data):
    """A mail with other types in the place of `message/..`, so that Python does not read their bodies as mails."""
    return re.sub(rb"(?i)(?<![a-z-])message/(?=[a-z])", rb"x-\g<0>", data)


def opened(data):
    """The bytes as they were."""
    return re.sub(rb"(?i)(?<![a-z-])x-(message/)", rb"\1", data)


def kind_of(part):
    """The type of a part of a closed mail."""
    return re.sub("^x-message/", "message/", part.get_content_type())


def is_saved(part):
    """Whether a part is saved: it has no parts of its own, and is a file or no text that readers show."""
    return not has_parts(part) and (is_file(part) or part.get_content_type() not in SHOWN_TYPES)


def bytes_of(part):
    """The bytes of the body of a part of a closed mail; those of a mail in a digest, into which Python has read all
    the same, are written anew."""
    if part.is_multipart():
        return opened(b"".join(inner.as_bytes() for inner in part.get_payload()))
    return opened(body_of(part))


def parts_anywhere(data, inside=None):
    """The parts of a closed mail, which the part with this path contains, and then those of the mails inside it: as
    `all_parts` has them, but those of encoded mails too."""
    mail = email.message_from_bytes(closed(data))
    parts = list(parts_inside(mail, inside) if inside else walk(mail, "" if has_parts(mail) else "1"))
    yield from ((inside, path, part) for path, part in parts)
    for path, part in parts:
        if kind_of(part) in FORWARDED:
            yield from parts_anywhere(bytes_of(part), path)


FORWARDED = ("message/rfc822", "message/global")


def saved_files(data, with_contained=True):
    """The paths and the bytes of what is saved of a mail, then of the mails inside it; also, or not, what the file of a
    forwarded mail contains: the mails that are forwarded in it."""
    return (
        (path, bytes_of(part)) for inside, path, part in parts_anywhere(data)
        if is_saved(part) and (with_contained or inside is None or kind_of(part) not in FORWARDED)
    )


STATUSES = ("message/delivery-status", "message/global-delivery-status")
REPORTS = (*STATUSES, "message/feedback-report", "message/disposition-notification")
ORIGINALS = ("message/rfc822", "text/rfc822-headers", "message/global", "message/global-headers")
FIELDS = ("final_recipient", "original_recipient", "action", "status", "diagnostic_code")


def blocks_of(body):
    """The blocks of a report, as mails without a body: what is between its empty lines."""
    return [email.message_from_bytes(block) for block in re.split(rb"(?m)^\r?\n", body) if block]


def report_of(part):
    """The blocks of a report, lists of pairs of a name and a value, or None for another part of a closed mail."""
    if kind_of(part) not in REPORTS:
        return None
    return [[[name, shown(value).strip()] for name, value in block.raw_items()] for block in blocks_of(bytes_of(part))]


def without_comments(text):
    """A text without its comments (RFC 5322, section 3.2.2), of which a quoted string has none."""
    kept, depth, is_quoted, is_escaped = "", 0, False, False
    for character in text:
        is_kept = depth == 0
        if is_escaped:
            is_escaped = False
        elif character == "\\" and (depth or is_quoted):
            is_escaped = True
        elif character == '"' and depth == 0:
            is_quoted = not is_quoted
        elif character == "(" and not is_quoted:
            depth, is_kept = depth + 1, False
        elif character == ")" and depth:
            depth -= 1
        kept += character * is_kept
    return kept


def field_of(block, name):
    """A field on a recipient, or None: without comments, but for what the other mail system replied, and without the
    type that is before a semicolon, if the field has one."""
    text = shown(raw_value(block, name.replace("_", "-")))
    if text is None:
        return None
    text = text if name == "diagnostic_code" else without_comments(text)
    return (text if name in ("action", "status") else text.split(";", 1)[-1]).strip()


def recipients(mail, parts):
    """The recipients that the delivery reports among the mail's own closed parts are about, and those in
    X-Failed-Recipients."""
    bodies = [bytes_of(part) for part in parts if kind_of(part) in STATUSES]
    blocks = [block for body in bodies for block in blocks_of(body) if "final-recipient" in block]
    found = [{name: field_of(block, name) for name in FIELDS} for block in blocks]
    for key, value in mail.raw_items():
        if key.lower() == "x-failed-recipients":
            addresses = filter(None, (piece.strip() for piece in shown(value).split(",")))
            found += [{**dict.fromkeys(FIELDS), "final_recipient": address} for address in addresses]
    return found


def bounced_id(mail):
    """The id of the mail that a delivery report, a closed mail, returns whole or by its headers, or None."""
    own = mail.get_payload() if has_parts(mail) and mail.get_content_type() == "multipart/report" else []
    originals = [email.message_from_bytes(bytes_of(part)) for part in own if kind_of(part) in ORIGINALS]
    found = ids(raw_value(originals[0], "message-id"), False) if originals else []
    return found[0] if found else None


def main():
    """Writes the lines of all inputs."""
    parser = argparse.ArgumentParser(description=__doc__, formatter_class=argparse.RawDescriptionHelpFormatter)
    parser.add_argument("--mbox", action="store_true", help="each input is a mailbox")
    parser.add_argument("files", metavar="FILE", nargs="*", type=argparse.FileType("rb"), help="a mail, or a mailbox")
    asked = parser.parse_args()
    for file in asked.files or [sys.stdin.buffer]:
        write_lines(file.read(), asked.mbox)


if __name__ == "__main__":
    main()
