"""The programs and the suite when memory is refused or limited.

Each allocation of a run is refused in turn, alone or with all that follow. The run then gives what it gives with ample
memory, or ends with exit status 1 and reports only that memory ran out. What rocktray has written by then is the front
of what it writes with ample memory, and after it at most an object that says so; each saved file is complete and has
its line; mail_show has written nothing. A run that met a refusal ends in the second way, unless the memory was wanted
for a longer buffer, in which a line is kept until it is whole.
"""

import base64
import filecmp
import hashlib
import itertools
import json
import os
import re
import resource
import subprocess
import sys

import pytest

from support import FROM, SAMPLES, TOP, command, multipart, program, run, text_of

from suite import rows_in

DATA = TOP / "crates" / "mail_vectors" / "data"
FILES = (DATA.parent / "args").read_text().split()
REFUSED = {
    "lone_cr": b"A: 1\n\rB",
    "part_with_space": b"Content-Type: multipart/mixed; boundary=b\n\n--b\n x\n--b\n\rz\n--b--\n",
}
MAILS = {path.stem: path.read_bytes() for path in SAMPLES} | REFUSED
# two files of one name, one of them damaged; a mail without headers that can be read; a file without a name; and forwarded mails
FILES_OF_MAILS = (
    multipart(
        b"b", b"\nText\n", b'Content-Disposition: attachment; filename="../a.tar.gz"\n\none',
        b'Content-Disposition: attachment; filename="../a.tar.gz"\nContent-Transfer-Encoding: base64\n\ndHdv!!!!',
    ),
    b" x\n",
    b"Content-Disposition: attachment\n\nthree\n",
    multipart(
        b"b", b"Content-Type: message/rfc822\nContent-Transfer-Encoding: base64\n\n" + base64.encodebytes(
            multipart(b"c", b"\nHi", b"Content-Type: image/png\n\npixels")
        ), b"Content-Type: message/rfc822\n\n x", b"Content-Type: TEXT\n\nText",
    ),
)
MAILBOXES = {
    "json": (TOP / "crates" / "rocktray" / "stdin").read_bytes(),
    "files": b"\n".join(FROM + mail for mail in FILES_OF_MAILS),
}
RUNS = [(name, arguments, mail) for name, arguments in (("mail_show", []), ("json", []), ("show", ["-"])) for mail in MAILS]
RUNS += [(name, ["--mbox", "-"], "json") for name in ("json", "show")]
RUNS += [("extract", [option, "--into", "into"], "files") for option in ("--hash", "--by-hash")]


# the object of standard input if memory ran out for the rest of it
GIVEN_UP = {
    "json": re.compile(rb'\{"schema":6,"file":null,"number":null,"start":null,"end":null,"error":"([^"]*)"\}\n'),
    "extract": re.compile(rb'\{"file":null,"number":null,"path":null,"saved":null,"size":null,"sha256":null,"error":"([^"]*)"\}\n'),
}
GIVEN_UP["check"] = GIVEN_UP["json"]


def split_last(lines):
    """The lines before the last one, and that."""
    start = lines[:-1].rfind(b"\n") + 1
    return lines[:start], lines[start:]


def given_up(name, output):
    """What an output has before the object that says that memory ran out, and what that says: None without such an object."""
    front, last = split_last(output)
    found = GIVEN_UP[name].fullmatch(last) if name in GIVEN_UP else None
    return (front, found[1].decode()) if found and found[1].endswith(b"out of memory") else (output, None)


def is_front(name, output, wanted):
    """Whether an output is the front of the wanted one, and then at most an object that says after how many lines memory
    ran out. A line that is cut off before the object ends in LF."""
    front, why = given_up(name, output)
    if why is None:
        return wanted.startswith(front)
    if not wanted.startswith(front):
        front = front[:-1]
    count = front.count(b"\n")
    after = ["", "after 1 line: "][count] if count < 2 else f"after {count} lines: "
    return wanted.startswith(front) and why == f"{after}out of memory"


def is_said(name, output, last):
    """Whether the last line on standard error says that memory ran out: for the input, if the output has an object of it."""
    why = given_up(name, output)[1]
    if why is not None:
        return last == f"rocktray: standard input: {why}\n".encode()
    if name == "mail_show":
        return re.fullmatch(rb"mail_show: ([\w ]+: )?out of memory\n", last) is not None
    input_ = rb"(standard input: )?" if name == "show" else b""
    return re.fullmatch(rb"rocktray: " + input_ + rb"(output failed: )?out of memory\n", last) is not None


class Refused:
    """Runs of a program on a mail with allocations refused, in a directory with the subdirectory `into`."""

    def __init__(self, library, name, arguments, mail, directory):
        self.library, self.name, self.directory = library, name, directory
        self.command = [*command(name), *arguments]
        (directory / "mail").write_bytes((MAILS | MAILBOXES)[mail])
        (directory / "into").mkdir()
        self.wanted = self.run({})[0]
        (directory / "into").rename(directory / "saved")
        (directory / "into").mkdir()

    def run(self, environment):
        """The exit status, output and standard error of a run; and the numbers of allocations and of refused ones."""
        report = self.directory / "report"
        report.write_bytes(b"")
        for path in (self.directory / "into").iterdir():
            path.unlink()
        loaded = {"LD_PRELOAD": str(self.library), "REFUSE_REPORT": str(report), **environment}
        with open(self.directory / "mail", "rb") as file:
            ended = subprocess.run(self.command, stdin=file, capture_output=True, timeout=60, cwd=self.directory,
                                   env={**os.environ, **loaded})
        counts = [int(it) for it in report.read_text().split()]
        return (ended.returncode, ended.stdout, ended.stderr), counts

    def saved_files(self):
        """Whether all files are saved, and whether each that is there is complete."""
        compared = filecmp.dircmp(self.directory / "into", self.directory / "saved")
        return not compared.right_only and not compared.diff_files, not compared.left_only + compared.diff_files

    def has_lines(self, output):
        """Whether the files that are there are those of the lines."""
        names = {json.loads(line)["saved"] for line in output.split(b"\n")[:-1]} - {None}
        return names == {path.name for path in (self.directory / "into").iterdir()}

    def is_right(self, found):
        """Whether a run gave what it gives with ample memory."""
        return found == self.wanted and self.saved_files()[0]

    def is_short(self, found):
        """Whether a run reports that memory ran out, after the front of what it reports otherwise."""
        status, output, error = found
        front = output == b"" if self.name == "mail_show" else is_front(self.name, output, self.wanted[1])
        notes, last = split_last(error)
        is_reported = self.wanted[2].startswith(notes) and is_said(self.name, output, last)
        is_saved = self.saved_files()[1] and (self.name != "extract" or self.has_lines(output))
        return status == 1 and is_reported and front and is_saved

    def most_kept(self):
        """How often the buffer may grow in which a line is kept: it doubles each time."""
        return max(map(len, self.wanted[1].splitlines())).bit_length() if self.name in GIVEN_UP else 0


@pytest.mark.parametrize("which", ["REFUSE_AT", "REFUSE_FROM"])
@pytest.mark.parametrize("name, arguments, mail", RUNS)
def test_refused_allocations(refuse, tmp_path, name, arguments, mail, which):
    """Each allocation in turn, until a run meets no refusal."""
    runs = Refused(refuse, name, arguments, mail, tmp_path)
    kept = 0
    for number in range(1, 100_000):
        found, (_calls, refused) = runs.run({which: str(number)})
        if refused and kept < runs.most_kept() and runs.is_right(found):
            kept += 1
            continue
        assert runs.is_short(found) if refused else runs.is_right(found), f"allocation {number}: {found}"
        if not refused:
            break
    assert number > 5


def test_check_goes_on(refuse, tmp_path):
    """An allocation that is refused for a mail of a mailbox costs `rocktray check` the findings of that mail alone."""
    runs = Refused(refuse, "check", ["--json", "--mbox", "-"], "files", tmp_path)
    wanted = [json.loads(line) for line in runs.wanted[1].splitlines()]
    lost = set()
    for number in range(1, 100_000):
        found, (_calls, refused) = runs.run({"REFUSE_AT": str(number)})
        if not refused:
            break
        objects = [json.loads(line) for line in found[1].splitlines()]
        changed = [index for index, (one, other) in enumerate(zip(objects, wanted)) if one != other]
        if len(objects) < len(wanted):
            front = found[0] == 1 and is_front("check", found[1], b"")
            assert front and is_said("check", found[1], found[2]), f"allocation {number}: {found}"
        elif changed:
            (index,) = changed
            origin = {member: wanted[index][member] for member in ("schema", "file", "number", "start", "end")}
            assert objects[index] == {**origin, "error": "out of memory"} and len(objects) == len(wanted)
            said = f"rocktray: standard input: mail {index + 1}: out of memory\n".encode()
            assert (found[0], found[2]) == (1, said), f"allocation {number}: {found}"
            lost.add(index)
        else:
            assert found == runs.wanted, f"allocation {number}: {found}"
    assert found == runs.wanted and lost == set(range(len(wanted))) and len(wanted) == len(FILES_OF_MAILS)


def replay(refuse, report, arguments, **environment):
    """The numbers of rows that passed, and how often memory ran out and was refused, in a replay of the suite."""
    report.write_bytes(b"")
    loaded = {"LD_PRELOAD": str(refuse), "REFUSE_REPORT": str(report), **environment}
    ended = subprocess.run([program("mail_vectors"), *arguments], capture_output=True, text=True, cwd=DATA, timeout=900,
                           env={**os.environ, **loaded})
    rows = re.search(r"^(\d+) passed, 0 failed$", ended.stderr, re.M)
    ran_out = re.search(r"^memory ran out (\d+) times$", ended.stderr, re.M)
    assert ended.returncode == 0 and rows, ended.stdout[-5000:] + ended.stderr[-5000:]
    return int(rows[1]), int(ran_out[1]) if ran_out else 0, int(report.read_text().split()[1])


def rows_of(files):
    """The number of rows in files of the suite."""
    return sum(1 for name in files for _ in rows_in(DATA / name))


def test_suite_with_ample_memory(refuse, tmp_path):
    """All rows, long ones too."""
    rows, ran_out, refused = replay(refuse, tmp_path / "report", FILES)
    assert (ran_out, refused) == (0, 0)
    assert rows == rows_of(FILES)


@pytest.mark.parametrize("mode", ["at", "from"])
def test_suite_with_refused_memory(refuse, tmp_path, mode):
    """Each row is tried until no allocation is refused: first its first allocation is refused, then the second, and so
    on; with `from` all that follow too. In the end each row returns the right result, memory has run out as often as an
    allocation was refused, and rows that are marked so allocate nothing."""
    files = [name for name in FILES if not name.startswith("long_")]
    rows, ran_out, refused = replay(refuse, tmp_path / "report", ["again", *files], REFUSE_ROWS=mode)
    assert rows == rows_of(files)
    assert ran_out == refused > rows


# a mail of 2.4 MB, and what the programs write of it
COUNT = 60_000
HEADER = "Subject: =?utf-8?Q?caf=C3=A9?= and more\n"
SUBJECT = "café and more"
LONG = (HEADER * COUNT + "\nbody").encode()
FILE = b"a line of the file\n" * 95_000


def json_line():
    """The line of rocktray json."""
    size = len(LONG)
    part = {
        "path": "1", "inside": None, "type": "text/plain", "charset": "us-ascii", "params": {}, "disposition": None,
        "file_name": None, "content_id": None, "attachment": False, "extracted": False, "encoding": "7bit", "start": 0,
        "end": size, "size": 4, "refusal": None, "decoded_size": 4, "sha256": None, "report": None,
        "text_files": [], "headers": [["Subject", SUBJECT]] * COUNT, "text": "body", "html_text": None, "text_charset": "utf-8",
    }
    lists = ("from", "to", "cc", "bcc", "reply_to", "sender")
    mail = {"schema": 6, "file": None, "number": None, "start": 0, "end": size, "subject": SUBJECT}
    mail.update({name: [] for name in lists}, raw={name: None for name in lists}, date=None, message_id=[])
    mail.update(in_reply_to=[], references=[], bounced_id=None, recipients=[], parts=[part], forwarded=[])
    return json.dumps(mail, ensure_ascii=False, separators=(",", ":")) + "\n"


def extract_line():
    """The line of rocktray extract."""
    line = {"file": None, "number": None, "path": "1", "saved": "file", "size": len(FILE)}
    line.update(sha256=hashlib.sha256(FILE).hexdigest(), error=None)
    return json.dumps(line, separators=(",", ":")) + "\n"


def shown():
    """What rocktray show writes."""
    return f"Subject:  {SUBJECT}\n" * COUNT + f"\n  body\n\nPart:     {'1':4}  {'text/plain':24}  4 bytes\n"


# the options of each program, where it has some
ARGUMENTS = {"show": ["-"], "extract": ["--hash", "--into", "."]}
LIMITED = {
    "mail_show": (LONG, lambda: f"part 0: text/plain, {COUNT} headers, 4 body bytes\n" + f"  Subject: {SUBJECT}\n" * COUNT),
    "json": (LONG, json_line),
    "show": (LONG, shown),
    "extract": (
        b"Content-Disposition: attachment; filename=file\nContent-Transfer-Encoding: base64\n\n" + base64.encodebytes(FILE),
        extract_line,
    ),
}


def run_limited(command, mail, directory, limit):
    """A run under a limit on its memory in KB."""
    def set_limit():
        resource.setrlimit(resource.RLIMIT_AS, (limit * 1024, limit * 1024))

    (directory / "file").unlink(missing_ok=True)
    return subprocess.run(command, input=mail, capture_output=True, timeout=60, cwd=directory, preexec_fn=set_limit)


@pytest.mark.parametrize("name", LIMITED)
def test_limits(name, tmp_path):
    """Smaller and smaller limits on memory, from 32 MB down to where the loader cannot start the program."""
    mail, wanted = LIMITED[name][0], LIMITED[name][1]().encode()
    arguments = [*command(name), *ARGUMENTS.get(name, [])]
    right = short = 0
    for limit in range(32_000, 0, -250):
        ended = run_limited(arguments, mail, tmp_path, limit)
        if re.search(rb"error while loading shared libraries|cannot allocate TLS data structures", ended.stderr):
            break
        if name == "extract":
            is_complete = (tmp_path / "file").exists() and (tmp_path / "file").read_bytes() == FILE
            assert is_complete or (ended.returncode == 1 and not (tmp_path / "file").exists()), f"{limit} KB"
        if ended.returncode == 0:
            assert (ended.stdout, ended.stderr) == (wanted, b""), f"{limit} KB"
            right += 1
        else:
            assert ended.returncode == 1 and is_said(name, ended.stdout, ended.stderr), f"{limit} KB"
            may_begin = name in ("json", "show")
            front = is_front(name, ended.stdout, wanted if may_begin else b"")
            assert front, f"{limit} KB"
            short += 1
    assert right > 0 and short > 0


ATTACHED = b"Content-Type: application/zip; name=a.zip\nContent-Transfer-Encoding: base64\n\n" + base64.encodebytes(bytes(700_000))


def mailbox_file(path, mails):
    """Writes a mailbox, and returns its path."""
    with open(path, "wb") as file:
        for mail in mails:
            file.write(FROM + mail + b"\n")
    return path


@pytest.mark.parametrize("arguments, count", [
    (["json", "--mbox"], 820), (["json", "--mbox", "--no-text"], 820), (["extract", "--by-hash", "--into", "."], 210),
])
def test_long_mailbox(arguments, count, tmp_path):
    """A mailbox of 200 MB in 100 MB of memory."""
    small = [multipart(b"s", b"\nText %d\n" % number) for number in range(610)]
    mails = small + [multipart(b"b", b"\nText\n", ATTACHED)] * 210
    path = mailbox_file(tmp_path / "mailbox", mails)
    assert path.stat().st_size > 195_000_000
    ended = run_limited([*command(arguments[0]), *arguments[1:], path], b"", tmp_path, 100_000)
    path.unlink()
    assert (ended.returncode, ended.stderr, ended.stdout.count(b"\n")) == (0, b"", count)


def test_part_without_a_mail(tmp_path):
    """A part in which no mail begins is read to its end and no further: one of 4 MB of a mail of 64 MB in 24 MB."""
    path = mailbox_file(tmp_path / "mailbox", [b"Subject: long\n\n" + b"a line of the text\n" * 3_368_000, b"Subject: last\n\n"])
    assert path.stat().st_size > 63_900_000
    for number in (2, 8, 15):
        ended = run_limited([*command("json"), "--part", f"{number}/16", path], b"", tmp_path, 24_000)
        assert (ended.returncode, ended.stderr, ended.stdout) == (0, b"", b""), number
    ended = run_limited([*command("json"), "--no-text", "--part", "16/16", path], b"", tmp_path, 24_000)
    assert (ended.returncode, [json.loads(line)["subject"] for line in ended.stdout.splitlines()]) == (0, ["last"])


def test_mails_inside_one_another(tmp_path):
    """The bytes of mails that are forwarded in one another are in memory once: 12 MB in 98 levels, in 40 MB."""
    mail = multipart(b"last", b"Content-Type: application/zip; name=last.zip\n\n" + b"x" * 12_000_000)
    for level in range(98):
        mail = multipart(b"level%d" % level, b"Content-Type: message/rfc822\n\n" + mail)
    (tmp_path / "mail").write_bytes(mail)
    for arguments, count in ((["json"], 1), (["extract", "--into", "."], 2)):
        ended = run_limited([*command(arguments[0]), *arguments[1:], tmp_path / "mail"], b"", tmp_path, 40_000)
        assert (ended.returncode, ended.stderr, ended.stdout.count(b"\n")) == (0, b"", count), arguments


ENCODED = b"Content-Type: message/rfc822\nContent-Transfer-Encoding: %b\n\n"
FORWARDED = b"Content-Type: message/rfc822\n\n"


def inside_one_another(size, levels):
    """A mail of this many bytes in as many levels, each encoded."""
    return ENCODED % b"quoted-printable" * levels + b"Subject: last\n\n" + b"y" * size + b"\n"


TOO_MANY_BYTES = "Too many decoded bytes"


@pytest.mark.parametrize("arguments", [["json"], ["json", "--no-text"], ["extract", "--into", "into"]])
def test_decoded_bytes(arguments, tmp_path):
    """A mail of 2 MB in 98 levels of quoted-printable, which are 196 MB, is refused in 120 MB; those beside it are read."""
    (tmp_path / "into").mkdir()
    (tmp_path / "deep").write_bytes(inside_one_another(2_000_000, 98))
    (tmp_path / "flat").write_bytes(multipart(b"b", FORWARDED + inside_one_another(2_000_000, 3)))
    inputs = ["flat", "deep", "flat"]
    ended = run_limited([*command(arguments[0]), *arguments[1:], *inputs], b"", tmp_path, 120_000)
    objects = [json.loads(line) for line in ended.stdout.splitlines()]
    assert (ended.returncode, ended.stderr.count(b"\n")) == (3, 0 if arguments[0] == "json" else 1), ended.stderr
    assert [(one["file"], one["error"]) for one in objects if one.get("error")] == [("deep", TOO_MANY_BYTES)]
    assert [file for file, _ones in itertools.groupby(objects, lambda one: one["file"])] == inputs


def test_max_bytes(tmp_path):
    """The mails inside that are encoded count, at each level, and those that are not do not."""
    inner = b"Subject: last\n\nHello\n"
    encoded = ENCODED % b"base64" + base64.encodebytes(inner)
    twice = ENCODED % b"base64" + base64.encodebytes(encoded)
    for raw, count in (
        (inner, 0), (FORWARDED + inner, 0), (encoded, len(inner)), (FORWARDED + encoded, len(inner)),
        (twice, len(encoded) + len(inner)), (multipart(b"b", encoded, encoded), 2 * len(inner)),
    ):
        for words in (["json"], ["extract", "--into", "."], ["extract", "--stdout", "--name", "none"]):
            for most in {count, max(count - 1, 0)}:
                ended = run([*command(words[0]), *words[1:], "--max-bytes", str(most)], raw, cwd=tmp_path)
                assert (TOO_MANY_BYTES.encode() in ended.stdout + ended.stderr) == (most < count), (words, most)
    box = b"\n".join(FROM + mail for mail in (FORWARDED + inner, twice, encoded))
    ended = run([*command("json"), "--mbox", "--max-bytes", str(len(inner))], box)
    found = [(one["number"], one.get("error")) for one in map(json.loads, ended.stdout.splitlines())]
    assert (ended.returncode, found) == (3, [(1, None), (2, TOO_MANY_BYTES), (3, None)])


@pytest.mark.parametrize("name", ["json", "extract", "show", "check"])
def test_run_goes_on(name, tmp_path):
    """An input that needs too much memory is named, and the others are read."""
    (tmp_path / "into").mkdir()
    (tmp_path / "small").write_bytes(b"Content-Type: text/csv; name=a.csv\n\n1,2\n")
    (tmp_path / "large").write_bytes(b"Content-Type: text/csv; name=a.csv\n\n" + b"1,2\n" * 12_000_000)
    arguments = {"extract": ["--into", "into"], "check": ["--json"]}.get(name, [])
    ended = run_limited([*command(name), *arguments, "small", "large", "small"], b"", tmp_path, 40_000)
    assert (ended.returncode, ended.stderr) == (1, b"rocktray: large: out of memory\n")
    if name == "show":
        assert ended.stdout.count(b"-- small --\n") == 2
    else:
        objects = [json.loads(line) for line in ended.stdout.splitlines()]
        assert [(one["file"], one.get("error")) for one in objects] == [("small", None), ("large", "out of memory"), ("small", None)]


def test_only_file_without_memory(tmp_path):
    """With `--stdout` nothing is written of an input that needs too much memory; standard error names it."""
    (tmp_path / "large").write_bytes(b"Content-Type: text/csv\n\n" + b"1,2\n" * 12_000_000)
    ended = run_limited([*command("extract"), "--stdout", "large"], b"", tmp_path, 40_000)
    assert (ended.returncode, ended.stdout, ended.stderr) == (1, b"", b"rocktray: large: out of memory\n")


def front_of_mailbox(path, limit, *options):
    """The lines of a mailbox in limited memory, without the object that says that memory ran out; None if it did not."""
    ended = run_limited([*command("json"), *options, path], b"", path.parent, limit)
    *lines, last = ended.stdout.splitlines(keepends=True)
    if ended.returncode == 0:
        assert ended.stderr == b""
        return None
    assert (ended.returncode, ended.stderr) == (1, f"rocktray: {path}: after 3 lines: out of memory\n".encode()), limit
    assert json.loads(last) == {
        "schema": 6, "file": str(path), "number": None, "start": None, "end": None, "error": "after 3 lines: out of memory"
    }
    return lines


SUBJECTS = [b"Subject: %d\n\n" % number for number in range(3)]


@pytest.mark.parametrize("options", [["--mbox"], ["--part", "1/1"]])
def test_line_that_is_given_up(options, tmp_path):
    """A mail for whose text there is no memory: nothing is written of it, and the mails before it have their lines."""
    long = multipart(b"b", b"Content-Type: text/plain; charset=utf-16\n\n" + b"y" * 6_000_000)
    path = mailbox_file(tmp_path / "mailbox", [*SUBJECTS, long])
    fronts = [front_of_mailbox(path, limit, *options) for limit in range(60_000, 22_000, -2_000)]
    short = [front for front in fronts if front is not None]
    assert short and all([json.loads(line)["subject"] for line in front] == ["0", "1", "2"] for front in short)


def test_line_that_is_cut_off(tmp_path):
    """A mail whose first text is written before there is no memory for its second one: its line is cut off, and ends in LF."""
    texts = [b"Content-Type: text/plain\n\n" + b"x" * 5_000_000, b"Content-Type: text/plain; charset=utf-16\n\n" + b"y" * 10_000_000]
    path = mailbox_file(tmp_path / "mailbox", [*SUBJECTS, multipart(b"b", *texts)])
    whole = run([*command("json"), "--mbox", path]).stdout
    cut = 0
    for limit in range(100_000, 40_000, -2_000):
        front = front_of_mailbox(path, limit, "--mbox")
        if front and len(front) == 4:
            assert len(front[3]) > 4 * 1024 * 1024 and whole.startswith(b"".join(front)[:-1]), limit
            cut += 1
        else:
            assert front is None or whole.startswith(b"".join(front)) and len(front) == 3, limit
    assert cut > 0


# the bytes of memory for the mail, each part and each header, beside 5 times the mail: docs/RULES.md has them
BYTES_PER_ITEM = int(re.search(r"5 times the mail and (\d+)\s+bytes for each of its items", text_of("docs/RULES.md"))[1])
# what a program takes for an empty mail
START = 8_000_000
# the buffer of a line that is kept until it is whole, at most 4 MiB, whose size doubles
LINE = dict.fromkeys(GIVEN_UP, 8 * 2**20)


# runs a command, and prints its exit status and its greatest memory in bytes. A process begins with the peak of the one
# that starts it, so this is a small one.
PEAK = """
import resource, subprocess, sys
ended = subprocess.run(sys.argv[1:], stdout=subprocess.DEVNULL, stderr=subprocess.DEVNULL)
print(ended.returncode, 1024 * resource.getrusage(resource.RUSAGE_CHILDREN).ru_maxrss)
"""


def peak(arguments, raw, directory):
    """The exit status of a run on a mail, and its greatest memory in bytes."""
    (directory / "mail").write_bytes(raw)
    with open(directory / "mail", "rb") as file:
        ended = subprocess.run([sys.executable, "-c", PEAK, *arguments], stdin=file, stdout=subprocess.PIPE, cwd=directory, check=True)
    status, used = ended.stdout.split()
    return int(status), int(used)


HEAD = b"Content-Type: multipart/mixed; boundary=b\n\n"
UUENCODED = b"Content-Transfer-Encoding: x-uuencode\n\nbegin 644 a\n"
# mails of many parts or headers, or with lines that become longer when they are decoded, and how many items each has
HOSTILE = {
    "parts": (HEAD + b"--b\n\n" * 2_000_000 + b"--b--\n", 2_000_002),
    "parts_with_headers": (HEAD + b"--b\nContent-Type: text/plain\n\nx\n" * 300_000 + b"--b--\n", 600_002),
    "headers": (b"A: b\n" * 2_000_000 + b"\nx", 2_000_001),
    "inside": (b"Content-Type: message/rfc822\n\n" * 1_000_000, 200),
    "parts_inside": (HEAD + b"--b\nContent-Type: message/rfc822\n\n" + HEAD.replace(b"=b", b"=c") + b"--c\n\n" * 600_000
                     + b"--c--\n--b--\n", 600_005),
    "short_lines": (UUENCODED + b"M\n" * 4_000_000 + b"`\nend\n", 2),
    "cut_lines": (UUENCODED + (b"_" + b'@(\"`' * 7 + b"@(\n") * 250_000 + b"`\nend\n", 2),
    "equal_lines": (UUENCODED + (b"_" + b'@(\"`' * 15 + b"@\n") * 130_000 + b"`\nend\n", 2),
    "full_lines": (UUENCODED + (b"_" + b'@(\"`' * 21 + b"\n") * 100_000 + b"`\nend\n", 2),
}
# how many times the mail a program takes for a body in uuencode: docs/RULES.md has it
TIMES_UUENCODED = int(re.search(r"#bodies-in-uuencode\)\s+takes up to (\d+) times the mail", text_of("docs/RULES.md"))[1])


@pytest.mark.parametrize("name", ["json", "show", "extract"])
@pytest.mark.parametrize("mail", HOSTILE)
def test_memory_of_items(name, mail, tmp_path):
    """The memory is bounded by the mail and the number of its parts and headers; a mail over the limit takes less."""
    raw, items = HOSTILE[mail]
    arguments = [*command(name), *ARGUMENTS.get(name, [])]
    times = TIMES_UUENCODED if raw.startswith(UUENCODED) else 5
    status, used = peak([*arguments, "--max-items", str(items)], raw, tmp_path)
    assert status in (0, 3) and used <= START + LINE.get(name, 0) + times * len(raw) + BYTES_PER_ITEM * items, used / items
    status, used = peak([*arguments, "--max-items", "1000"], raw, tmp_path)
    is_refused = items > 1000 and (mail != "parts_inside" or name == "extract")
    assert status == (3 if is_refused else 0)
    assert used <= START + LINE.get(name, 0) + times * len(raw) + BYTES_PER_ITEM * 1000, used


@pytest.mark.parametrize("name, count", [("json", 1_000_000), ("extract", 20_000)])
def test_memory_of_files_in_a_text(name, count, tmp_path):
    """The uuencoded blocks in a text count as items, and a mail with more of them than the limit is refused."""
    # the empty lines make the bound greater than the memory of the process that measures
    raw = b"\n" + b"begin 644 a\n`\nend\n" * count + b"\n" * 2_000_000
    for limit in (count, 1000):
        status, used = peak([*command(name), *ARGUMENTS.get(name, []), "--max-items", str(limit)], raw, tmp_path)
        assert status == (0 if limit == count else 3)
        assert used <= START + LINE[name] + 5 * len(raw) + BYTES_PER_ITEM * limit, used / limit
