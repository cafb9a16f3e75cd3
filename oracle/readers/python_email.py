"""Dumps mails as Python's email package reads them. The argument is the policy: default or compat32."""

import email
import email.header
import email.policy
import email.utils
import sys


def hexed(data):
    """Bytes, or a text, in hexadecimal."""
    return (data.encode("utf-8", "surrogateescape") if isinstance(data, str) else data or b"").hex() or "-"


def inner(part):
    """The parts to read into, or None for a leaf."""
    is_composite = part.get_content_maintype() == "multipart" or part.get_content_type() == "message/rfc822"
    return part.get_payload() if is_composite and part.is_multipart() else None


def dump(part, depth):
    """The lines of a part and of those in it. What a message/ is that is no mail has lost its bytes."""
    body = "*" if inner(part) is not None else "?" if part.is_multipart() else hexed(part.get_payload(decode=True))
    print("part", depth, hexed(part.get_content_type()), hexed(part.get_filename()), body)
    for each in inner(part) or ():
        dump(each, depth + 1)


def subject(mail):
    """The subject as a text."""
    return str(email.header.make_header(email.header.decode_header(mail["subject"] or "")))


def sender(mail):
    """The address of the first mailbox of From."""
    if mail.policy is email.policy.compat32:
        return next((address for _name, address in email.utils.getaddresses(map(str, mail.get_all("from", [])))), "")
    return next((address.addr_spec for address in mail["from"].addresses), "") if mail["from"] else ""


def main():
    """Dumps the files that standard input names."""
    policy = getattr(email.policy, sys.argv[1])
    for path in sys.stdin:
        with open(path.rstrip("\n"), "rb") as file:
            mail = email.message_from_bytes(file.read(), policy=policy)
        try:
            dump(mail, 0)
            text = (mail["subject"] or "") if policy is email.policy.default else subject(mail)
            print("subject", hexed(text), "\nfrom", hexed(sender(mail)))
        except Exception as error:  # what the package raises is not said anywhere
            print("failed", hexed(str(error)))
        print("end", flush=True)


main()
