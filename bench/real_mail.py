"""Real mails as the parts of one mail, or as a mailbox. The order of the mails is shuffled, the same in each run. A mail
that mail_speed refuses to read is left out: as a part it would have all refused."""

import email
import os
import random
import subprocess

from compare_real import mails_at, quoted
from made_mails import SEED

HEAD = b"MIME-Version: 1.0\nContent-Type: multipart/mixed; boundary=\"%s\"\n\n"
SEPARATOR = b"From a@example.org Sun Oct  2 14:06:22 2016\n"
BOUNDARY = b"=_a_part_for_each_mail"


def is_read(reader, mail):
    """Whether mail_speed reads a mail."""
    silent = subprocess.DEVNULL
    return subprocess.run([reader, "1", "parse"], input=mail, stdout=silent, stderr=silent, check=False).returncode == 0


def chosen(paths, size, reader):
    """The mails that are taken, each that still fits; reader is mail_speed."""
    mails = sorted((os.path.basename(path), mail) for path, mail in mails_at(paths))
    random.Random(SEED).shuffle(mails)
    left = size
    for _path, mail in mails:
        if len(mail) <= left and is_read(reader, mail):
            left -= len(mail)
            yield mail


def html_parts(mail):
    """The HTML of the parts of a mail."""
    for part in email.message_from_bytes(mail).walk():
        if part.get_content_type() == "text/html":
            try:
                yield part.get_payload(decode=True).decode(part.get_content_charset() or "utf-8", "replace")
            except LookupError:  # no charset has this name
                pass


def as_html(mails):
    """The HTML parts of them, each once, in UTF-8."""
    return "\n".join(dict.fromkeys(text for mail in mails for text in html_parts(mail))).encode()


def as_parts(mails):
    """One mail, whose parts these are."""
    delimiter = b"\n--" + BOUNDARY
    return HEAD % BOUNDARY + b"".join(delimiter[1:] + b"\n" + mail + b"\n" for mail in mails) + delimiter[1:] + b"--\n"


def as_mailbox(mails):
    """A mailbox of them."""
    return b"".join(SEPARATOR + quoted(mail) + b"\n" for mail in mails)
