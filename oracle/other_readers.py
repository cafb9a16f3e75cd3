#!/usr/bin/env python3
"""Compares what Rocktray and other mail programs read of mails, and counts those that differ without a finding.

Each PATH is a directory of files, each a mail. readers/ has a program for each reader; the ones whose needs are
installed (tools/install_needs.sh --readers) are compiled and run. All are compared in one normal form: the tree of
parts with their types, the SHA-256 of each decoded leaf, the file names, the subject, and the address of the first
mailbox of From. Left out is what is a matter of taste: CR LF and LF in bodies, line ends at the end of a body, and runs
of blanks in names and subjects. A reader that fails or ends on a mail differs from all others.

The last line says how many mails have no finding but notes and texts, and on how many of these readers differ. The exit
status is 0 however many differ. rocktray must be built (tools/program.sh rocktray).
"""
import argparse
import base64
import collections
import concurrent.futures
import hashlib
import json
import os
import quopri
import re
import subprocess
import sys
import tempfile
from dataclasses import dataclass

from suite import TOP

BATCH = 250
SECONDS = 120
HERE = f"{TOP}/oracle/readers"
FIELDS = ("structure", "bytes", "names", "subject", "from")
OURS = "rocktray"


@dataclass
class Reader:
    """A reader: the package of Debian that it is in, how its program is compiled, if at all, and how it is run. In both
    `SOURCE` is the directory readers/, `OUT` the compiled program. What it does not decode is not compared."""

    package: str
    run: str
    build: str = ""
    unasked: tuple = ()


READERS = {
    "python default": Reader("python3", "/usr/bin/python3 SOURCE/python_email.py default"),
    "python compat32": Reader("python3", "/usr/bin/python3 SOURCE/python_email.py compat32"),
    "gmime": Reader("libgmime-3.0-dev", "OUT", "cc -O1 -o OUT SOURCE/gmime.c $(pkg-config --cflags --libs gmime-3.0)"),
    "go": Reader("golang-go", "OUT", "GO111MODULE=off GOPATH=/usr/share/gocode GOCACHE=OUT.cache go build -o OUT SOURCE/gomail.go"),
    "mime-tools": Reader("libmime-tools-perl", "perl SOURCE/mime_tools.pl"),
    "email-mime": Reader("libemail-mime-perl", "perl SOURCE/email_mime.pl"),
    "ruby-mail": Reader("ruby-mail", "ruby SOURCE/ruby_mail.rb"),
    "mimetic": Reader("libmimetic-dev", "OUT", "c++ -O1 -w -o OUT SOURCE/mimetic.cpp -lmimetic", ("subject",)),
    "vmime": Reader("libvmime-dev", "OUT", "c++ -O1 -w -o OUT SOURCE/vmime.cpp $(pkg-config --cflags --libs vmime)"),
    "libetpan": Reader("libetpan-dev", "OUT", "cc -O1 -o OUT SOURCE/etpan.c -letpan"),
    "mime4j": Reader(
        "libapache-mime4j-java",
        "java -cp OUT:/usr/share/java/apache-mime4j-core.jar:/usr/share/java/apache-mime4j-dom.jar Mime4j",
        "javac -nowarn -d OUT -cp /usr/share/java/apache-mime4j-core.jar:/usr/share/java/apache-mime4j-dom.jar SOURCE/Mime4j.java",
    ),
}


def version(name):
    """The version of a reader, by Debian's package, or None if it is not installed."""
    asked = ["dpkg-query", "-W", "-f", "${Version}", READERS[name].package]
    try:
        ended = subprocess.run(asked, stdout=subprocess.PIPE, stderr=subprocess.DEVNULL, text=True, check=False)
    except FileNotFoundError:
        return None
    return ended.stdout or None


def built(name, directory):
    """The command that runs an installed reader, whose program is compiled into the directory."""
    words = {"SOURCE": HERE, "OUT": f"{directory}/{name.replace(' ', '_')}"}
    fill = lambda text: re.sub("SOURCE|OUT", lambda found: words[found[0]], text)
    if READERS[name].build:
        subprocess.run(["sh", "-c", fill(READERS[name].build)], check=True)
    return fill(READERS[name].run).split()


def outputs(command, paths):
    """The lines that a reader writes of each mail, or None where it ends or takes too long."""
    found = []
    while len(found) < len(paths):
        names = "".join(f"{path}\n" for path in paths[len(found) :]).encode()
        try:
            written = subprocess.run(command, input=names, stdout=subprocess.PIPE, stderr=subprocess.DEVNULL, timeout=SECONDS, check=False).stdout
        except subprocess.TimeoutExpired as late:
            written = late.output or b""
        mails = re.split(rb"(?m)^end\n", written)[:-1]
        found += mails
        if len(found) < len(paths):
            found.append(None)
    return found


def normal_text(data):
    """A text without what is a matter of taste."""
    return " ".join(data.decode("utf-8", "replace").split())


def normal_bytes(data):
    """The hash of a body without what is a matter of taste."""
    return hashlib.sha256(data.replace(b"\r\n", b"\n").rstrip(b"\r\n")).hexdigest()


def unhexed(word):
    """The bytes of a word of a line."""
    return b"" if word == "-" else bytes.fromhex(word)


def form(output):
    """The normal form of what a reader wrote of a mail: a value for each field, or the fault that it failed with."""
    if output is None:
        return "it ended"
    parts, texts = [], {}
    for words in map(str.split, output.decode().splitlines()):
        if words[:1] == ["part"]:
            parts.append(words[1:])
        elif words:
            texts[words[0]] = normal_text(unhexed(words[1]))
    if "failed" in texts or not parts:
        return texts.get("failed", "no parts")
    bodies = [words[3] if words[3] in "*?" else normal_bytes(unhexed(words[3])) for words in parts]
    return {
        "structure": tuple((int(depth), unhexed(kind).decode("latin-1").lower(), body == "*") for depth, kind, _name, body in parts),
        "bytes": tuple(bodies),
        "names": tuple(normal_text(unhexed(name)) for _depth, _kind, name, _body in parts),
        "subject": texts["subject"],
        "from": texts["from"],
    }


def forms_of(command, paths):
    """The normal forms of the mails."""
    return list(map(form, outputs(command, paths)))


def decoded(raw, encoding):
    """The bytes of a body, or the body itself if it is not Base64."""
    if encoding == "quoted-printable":
        return quopri.decodestring(raw)
    try:
        return base64.b64decode(raw + b"==") if encoding == "base64" else raw
    except ValueError:
        return raw


def body_hash(part, data):
    """The hash of a leaf, by the range that rocktray json gives, whose decoded bytes must be those that it counts and hashes;
    `?` within a mail that is encoded, which has no ranges."""
    if part["end"] is None:
        return "?"
    raw = decoded(data[part["end"] - part["size"] : part["end"]], part["encoding"])
    is_wrong = len(raw) != part["decoded_size"] or part["sha256"] not in (None, hashlib.sha256(raw).hexdigest())
    return f"{part['decoded_size']} other bytes" if is_wrong else normal_bytes(raw)


def in_order(parts, inside, depth):
    """The parts of a mail with their depths, those of a mail inside it after the part that contains it."""
    own = [part for part in parts if part["inside"] == inside]
    for part in own:
        path = part["path"] if inside is None else part["path"][len(inside) + 1 :]
        at = depth if part is own[0] else depth + len(path.split("."))
        yield at, part, any(one["inside"] == part["path"] for one in parts)
        yield from in_order(parts, part["path"], at + 1)


def our_form(mail, data):
    """The normal form of a line of rocktray json."""
    if "error" in mail:
        return mail["error"]
    parts = list(in_order(mail["parts"], None, 0))
    senders = [one for each in mail["from"] for one in each.get("members", [each]) if "address" in one]
    composite = [holds or part["type"].startswith("multipart/") for _depth, part, holds in parts]
    return {
        "structure": tuple((depth, part["type"], has_parts) for (depth, part, _holds), has_parts in zip(parts, composite)),
        "bytes": tuple("*" if has_parts else body_hash(part, data) for (_depth, part, _holds), has_parts in zip(parts, composite)),
        "names": tuple(" ".join((part["file_name"] or "").split()) for _depth, part, _holds in parts),
        "subject": " ".join((mail["subject"] or "").split()),
        "from": senders[0]["address"] if senders else "",
    }


def lines_of(program, arguments, directory):
    """The lines that a subcommand of rocktray writes of the files of a directory, in the order of their names."""
    with subprocess.Popen([program, *arguments, "--mail", directory], stdout=subprocess.PIPE) as running:
        yield from map(json.loads, running.stdout)


def checked(program, directory):
    """The names of the findings of each mail of a directory, but for notes and texts. A mail that is refused has one."""
    refused = [{"name": "refused", "class": "structure"}]
    return {line["file"]: {one["name"] for one in line.get("findings", refused) if one["class"] not in ("note", "text")}
            for line in lines_of(program, ["check", "--json"], directory)}


def inner_mails(line, data):
    """The mails inside a mail, of a line of rocktray json."""
    inside = {part["inside"] for part in line.get("parts", ()) if part["inside"] is not None}
    for path in sorted(inside):
        root = next(part for part in line["parts"] if part["inside"] == path)
        if root["start"] is not None:
            yield data[root["start"] : root["end"]]


def read_here(program, directory):
    """For each mail of a directory what rocktray json reads of it, and the names of its findings and of those of the mails
    inside it, each of which is checked by itself."""
    names, forms, owners = checked(program, directory), {}, []
    with tempfile.TemporaryDirectory() as inside:
        for line in lines_of(program, ["json", "--hash"], directory):
            with open(line["file"], "rb") as file:
                data = file.read()
            forms[line["file"]] = our_form(line, data)
            for mail in inner_mails(line, data):
                with open(os.path.join(inside, f"{len(owners):06}.eml"), "wb") as file:
                    file.write(mail)
                owners.append(line["file"])
        for owner, found in zip(owners, checked(program, inside).values() if owners else ()):
            names[owner] |= found
    return {path: (forms[path], names[path]) for path in names}


def matches(one, other):
    """Whether two values of a field agree. The bytes of `?` are not known."""
    if isinstance(one, tuple) and isinstance(other, tuple) and len(one) == len(other):
        return all(left == right or "?" in (left, right) for left, right in zip(one, other))
    return one == other


def unasked(name):
    """The fields that are not compared."""
    return READERS[name].unasked if name in READERS else ()


def odd(forms):
    """The readers that differ from the most frequent value of a field, with the field."""
    found = [(name, "all") for name, read in forms.items() if isinstance(read, str)]
    for field in FIELDS:
        values = {name: read[field] for name, read in forms.items() if not isinstance(read, str) and field not in unasked(name)}
        if values:
            usual = collections.Counter(values.values()).most_common(1)[0][0]
            found += [(name, field) for name, value in values.items() if not matches(value, usual)]
    return found


def read_all(commands, paths):
    """What each reader makes of the mails: by the mail, by the reader."""
    read = {path: {} for path in paths}
    batches = [paths[at : at + BATCH] for at in range(0, len(paths), BATCH)]
    with concurrent.futures.ProcessPoolExecutor(os.cpu_count()) as pool:
        jobs = {pool.submit(forms_of, command, batch): (name, batch) for batch in batches for name, command in commands.items()}
        for job in concurrent.futures.as_completed(jobs):
            name, batch = jobs[job]
            for path, one in zip(batch, job.result()):
                read[path][name] = one
    return read


def differences(commands, forms):
    """For each of these mails, given what is read here, the readers that differ from most, with the field."""
    read = read_all(commands, list(forms))
    return {path: odd({OURS: form, **read[path]}) for path, form in forms.items()}


def compilers(target):
    """The commands of the readers that are installed, compiled into a directory. One that cannot be compiled is named."""
    commands = {}
    for name in filter(version, READERS):
        try:
            commands[name] = built(name, target)
        except subprocess.CalledProcessError:
            print(f"{name} is left out: run tools/install_needs.sh --readers", file=sys.stderr)
    return commands


def main():
    """Compares the mails of the directories."""
    parser = argparse.ArgumentParser(description=__doc__, formatter_class=argparse.RawDescriptionHelpFormatter)
    parser.add_argument("--all", action="store_true", help="compare the mails with findings too")
    parser.add_argument("directories", metavar="PATH", nargs="+", help="a directory of mails")
    asked = parser.parse_args()
    missing = [path for path in asked.directories if not os.path.isdir(path)]
    if missing:
        parser.error(f"{missing[0]} is no directory")
    total = collections.Counter()
    with tempfile.TemporaryDirectory() as target:
        commands = compilers(target)
        print(*(f"{name} {version(name)}" for name in commands), sep="\n")
        for directory in map(os.path.abspath, asked.directories):
            here = read_here(f"{TOP}/crates/rocktray/out/rocktray", directory)
            wrong = differences(commands, {path: form for path, (form, names) in here.items() if asked.all or not names})
            total += collections.Counter(mails=len(here), empty=sum(not names for _form, names in here.values()))
            for path, found in wrong.items():
                total["listed" if here[path][1] else "missed"] += bool(found)
                if found and not here[path][1]:
                    print(path, *(f"{name}: {field}" for name, field in found), sep="\n  ")
    if asked.all:
        print(f"{total['listed']} mails with a finding are read differently")
    print(f"{total['mails']} mails, {total['empty']} without a finding, of which {total['missed']} are read differently")


if __name__ == "__main__":
    main()
