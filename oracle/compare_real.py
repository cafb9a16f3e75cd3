#!/usr/bin/env python3
"""Compares what rocktray json, rocktray extract and mail_jobs make of real mails with what Python's email package does.

Each PATH is a mail, a mailbox (a file that begins with `From `) or a directory of such files. The mails are read for
five jobs: the index (subject, the addresses of from, to and cc, date, id), the texts of parts and the attachments
(names and sizes), both those of forwarded mails too, the bytes that rocktray extract saves, whether these have all that
`iter_attachments` gives, the recipients that a delivery report says were not reached, the reports themselves, the ids
of parts, and the threads (the ids of the mails before it). Both sides read the same mailbox, into which all are put; so
a line that begins with `From ` begins with `>From ` there.
bench/fetch_real.sh fetches mails to compare. The programs must be built (tools/program.sh NAME).

For each item it prints in how many mails it differs, in how many of these it is refused here and in how many
by Python, and some of them: the mail, what is said here, and what Python says. The item `mail` are those that are
refused whole. What both refuse counts as the same. An attachment whose Base64 is damaged has the size of what
mail_jobs reads of it. The last line says how many mails agree in all. The exit status is 0 however many differ.
"""
import argparse
import collections
import email
import email.policy
import json
import os
import re
import subprocess
import sys
import tempfile

from by_email import (
    addresses_of, all_parts, body_of, bounced_id, bytes_of, closed, content_id, ids, is_file, is_saved, kind_of,
    mails_of, parts_anywhere, parts_of, raw_value, recipients, report_of, saved_files, seconds, shown, text_of,
    value_of,
)
from suite import TOP

BATCH = 1000
ITEMS = (
    "mail", "subject", "from", "to", "cc", "date", "id", "texts", "attachments", "bytes", "iter_attachments",
    "not reached", "parents", "parts", "reports", "recipients", "bounced id",
)
ESCAPE = re.compile(r"\\(u\{([0-9a-f]+)\}|.)")
FILE = re.compile(r'^file ([0-9.]*): ".*", ([0-9]+) bytes', re.M)
NAMED = {"n": "\n", "r": "\r", "t": "\t", "0": "\0"}


class Refused:
    """What a side says of a mail or an item that it refuses."""

    def __init__(self, why):
        self.why = why

    def __eq__(self, other):
        return isinstance(other, Refused)

    def __repr__(self):
        return f"refused: {self.why}"


def files_of(paths):
    """The files of all paths, in order."""
    for root in paths:
        if not os.path.isdir(root):
            yield root
        for directory, directories, names in os.walk(root):
            directories.sort()
            yield from (os.path.join(directory, name) for name in sorted(names))


def mails_at(paths):
    """The mails of all paths, each with its name."""
    for path in files_of(paths):
        with open(path, "rb") as file:
            data = file.read()
        if data.startswith(b"From "):
            yield from ((f"{path}:{number}", mail) for number, mail in enumerate(mails_of(data), 1))
        else:
            yield path, data


def quoted(mail):
    """A mail as a mailbox has it."""
    mail = re.sub(rb"(?m)^From ", b">From ", mail)
    return mail if mail.endswith(b"\n") else mail + b"\n"


def ran(command, data):
    """What a program writes of a mailbox, with exit status 3, or 1, if a mail is refused."""
    ended = subprocess.run(command, input=data, stdout=subprocess.PIPE, check=False)
    if ended.returncode not in (0, 1, 3):
        sys.exit(f"{command[0]} ended with exit status {ended.returncode}")
    return ended.stdout.decode("utf-8")


def records(output):
    """The records of mail_jobs, each of which ends in an empty line."""
    found = []
    for line in output.split("\n")[:-1]:
        if line:
            found.append(line)
        else:
            yield "\n".join(found)
            found = []


def once(texts):
    """The texts, each at its first occurrence."""
    return list(dict.fromkeys(texts))


def unescaped(text):
    """A text that mail_jobs wrote in quotes."""
    return ESCAPE.sub(lambda found: chr(int(found[2], 16)) if found[2] else NAMED.get(found[1], found[1]), text[1:-1])


def said_here(line, job, saved):
    """What is said here of each item of a mail: its line of rocktray json, its lines of mail_jobs, and the bytes that
    rocktray extract saved, by their paths."""
    mail = json.loads(line)
    if "error" in mail:
        return {"mail": Refused(mail["error"])}
    read = {path: int(size) for path, size in FILE.findall(job)}
    files = [part for part in mail["parts"] if part["attachment"]]
    missed = [line.split(": ", 1)[1] for line in job.split("\n") if line.startswith("not reached: ")]
    return {
        "mail": None,
        "subject": mail["subject"],
        "from": mail["from"],
        "to": mail["to"],
        "cc": mail["cc"],
        "date": Refused(mail["date_error"]) if "date_error" in mail else mail["date"],
        "id": mail["message_id"][0] if mail["message_id"] else None,
        "attachments": [
            (part["file_name"], read.get(part["path"]) if "error" in part else part["decoded_size"]) for part in files
        ],
        "texts": [(part["path"], part["text"]) for part in mail["parts"] if part["text"] is not None],
        "bytes": saved,
        "iter_attachments": set(saved.values()),
        "not reached": [unescaped(text) for text in missed],
        "parents": once(mail["references"] + mail["in_reply_to"]),
        "parts": [(part["inside"], part["path"], part["content_id"], part["extracted"]) for part in mail["parts"]],
        "reports": [part["report"] for part in mail["parts"] if part["report"] is not None],
        "recipients": mail["recipients"],
        "bounced id": mail["bounced_id"],
    }


def parts_within(mail):
    """A mail and its parts, but not those of the mails that it forwards."""
    yield mail
    if mail.get_content_maintype() == "multipart" and mail.is_multipart():
        for part in mail.get_payload():
            yield from parts_within(part)


def not_reached(mail):
    """The recipients for whom delivery failed, by the reports in a mail."""
    reports = [part for part in parts_within(mail) if part.get_content_type() == "message/delivery-status"]
    blocks = [block for report in reports if report.is_multipart() for block in report.get_payload()]
    failed = [block for block in blocks if str(block.get("action", "")).strip().lower() == "failed"]
    found = [shown(raw_value(block, "final-recipient")) for block in failed]
    return [text.split(";", 1)[-1].strip() for text in found if text is not None]


def sizes(data):
    """The names and sizes of the files of a mail, and then of the mails inside it."""
    parts = [part for _path, part in parts_of(email.message_from_bytes(closed(data)))]
    found = [(part.get_filename(), len(bytes_of(part))) for part in parts if is_file(part)]
    inside = [bytes_of(part) for part in parts if kind_of(part) in ("message/rfc822", "message/global")]
    return found + [file for inner in inside for file in sizes(inner)]


def own_id(mail):
    """The id of a mail, which may have no `@`."""
    found = re.search(r"<([^<>]*)>", shown(raw_value(mail, "message-id")) or "")
    return found[1] if found else None


def texts(mail):
    """The texts of a mail with the paths of their parts."""
    parts = [(path, part) for _inside, path, part in all_parts(mail) if not part.is_multipart()]
    found = ((path, text_of(part, body_of(part))["text"]) for path, part in parts)
    return [(path, text) for path, text in found if text is not None]


def contents(data):
    """The bytes of what is saved of a mail and of the mails inside it, by their paths."""
    return dict(saved_files(data, with_contained=False))


def attachments(data):
    """The bytes of what `iter_attachments` gives of a mail, but for forwarded mails and what has parts."""
    mail = email.message_from_bytes(data, policy=email.policy.default)
    return {body_of(part) for part in mail.iter_attachments() if not part.is_multipart()}


def parts(data):
    """The parts of a mail and of the mails inside it: where they are, their ids, and whether they are saved."""
    return [(inside, path, content_id(part), is_saved(part)) for inside, path, part in parts_anywhere(data)]


def reports(data):
    """The reports in a mail and in the mails inside it."""
    found = (report_of(part) for _inside, _path, part in parts_anywhere(data))
    return [report for report in found if report is not None]


def failed(data):
    """The recipients that the reports are about."""
    return recipients(email.message_from_bytes(data), [part for _inside, _path, part in parts_anywhere(data)])


# what is read of the bytes of a mail, and what of the mail that Python makes of them
READERS_OF_BYTES = {
    "attachments": sizes,
    "bytes": contents,
    "iter_attachments": attachments,
    "parts": parts,
    "reports": reports,
    "recipients": failed,
    "bounced id": lambda data: bounced_id(email.message_from_bytes(closed(data))),
}
READERS = {
    "subject": lambda mail: value_of(mail, "subject"),
    "from": lambda mail: addresses_of(mail, "from"),
    "to": lambda mail: addresses_of(mail, "to"),
    "cc": lambda mail: addresses_of(mail, "cc"),
    "date": lambda mail: seconds(raw_value(mail, "date")),
    "id": own_id,
    "texts": texts,
    "not reached": not_reached,
    "parents": lambda mail: once(ids(raw_value(mail, "references"), True) + ids(raw_value(mail, "in-reply-to"), True)),
}


def said_there(data):
    """What Python says of each item of a mail."""
    said = {"mail": None}
    for item, reader in READERS.items():
        try:
            said[item] = reader(email.message_from_bytes(data))
        except Exception as error:  # what the package raises is not said anywhere
            said[item] = Refused(f"{type(error).__name__}: {error}")
    for item, reader in READERS_OF_BYTES.items():
        try:
            said[item] = reader(data)
        except Exception as error:  # as above
            said[item] = Refused(f"{type(error).__name__}: {error}")
    return said


def differs(item, here, there):
    """Whether both sides differ in an item. We save more than `iter_attachments` gives, which enters no part."""
    if item == "iter_attachments" and isinstance(here, set) and isinstance(there, set):
        return not there <= here
    return here != there


def saved_by(program, mailbox):
    """The bytes of the files that rocktray extract saves of a mailbox: by the number of the mail, and by the path."""
    found = collections.defaultdict(dict)
    with tempfile.TemporaryDirectory() as directory:
        for line in ran([program, "extract", "--into", directory], mailbox).splitlines():
            saved = json.loads(line)
            if saved["saved"] is not None:
                with open(os.path.join(directory, saved["saved"]), "rb") as file:
                    found[saved["number"]][saved["path"]] = file.read()
    return found


class Counts:
    """How many mails differ in each item, and some of them."""

    def __init__(self, shown):
        self.shown = shown
        self.mails = 0
        self.same = 0
        self.differ = collections.Counter()
        self.examples = collections.defaultdict(list)

    def add(self, name, here, there):
        """Counts a mail."""
        self.mails += 1
        wrong = [item for item in here if differs(item, here[item], there[item])]
        self.same += not wrong
        for item in wrong:
            self.differ[item, "all"] += 1
            self.differ[item, "here"] += isinstance(here[item], Refused)
            self.differ[item, "there"] += isinstance(there[item], Refused)
            if len(self.examples[item]) < self.shown:
                self.examples[item].append((name, here[item], there[item]))

    def show(self):
        """Prints the counts."""
        for item in ITEMS:
            counts = [self.differ[item, which] for which in ("all", "here", "there")]
            print("{}: {} differ, {} refused here, {} by Python".format(item, *counts))
            for name, here, there in self.examples[item]:
                print(f"  {name}\n    here   {here!r:.200}\n    Python {there!r:.200}")
        print(f"{self.mails} mails, {self.same} of which agree in all")


def compare(batch, programs, counts):
    """Compares a batch of mails."""
    mailbox = b"".join(b"From a Thu Jan  1 00:00:00 1970\n" + mail + b"\n" for _name, mail in batch)
    lines = ran([programs["rocktray"], "json", "--mbox"], mailbox).split("\n")[:-1]
    jobs = list(records(ran([programs["mail_jobs"]], mailbox)))
    if not len(lines) == len(jobs) == len(batch):
        sys.exit(f"{len(batch)} mails are {len(lines)} lines of rocktray json and {len(jobs)} records of mail_jobs")
    saved = saved_by(programs["rocktray"], mailbox)
    for number, ((name, mail), line, job) in enumerate(zip(batch, lines, jobs), 1):
        counts.add(name, said_here(line, job, saved[number]), said_there(mail))


def main():
    """Compares the mails of all paths."""
    parser = argparse.ArgumentParser(description=__doc__, formatter_class=argparse.RawDescriptionHelpFormatter)
    parser.add_argument("--show", metavar="N", type=int, default=3, help="how many mails to show for each item, 3")
    parser.add_argument("paths", metavar="PATH", nargs="+", help="a mail, a mailbox, or a directory of them")
    asked = parser.parse_args()
    missing = [path for path in asked.paths if not os.path.exists(path)]
    if missing:
        parser.error(f"{missing[0]} is not there")
    programs = {name: f"{TOP}/crates/{name}/out/{name}" for name in ("rocktray", "mail_jobs")}
    for name, path in programs.items():
        if not os.path.isfile(path):
            sys.exit(f"compare_real.py: {name} is not built: run tools/program.sh {name}")
    counts = Counts(asked.show)
    batch = []
    for name, mail in mails_at(asked.paths):
        batch.append((name, quoted(mail)))
        if len(batch) == BATCH:
            compare(batch, programs, counts)
            batch = []
    compare(batch, programs, counts)
    counts.show()


if __name__ == "__main__":
    main()
