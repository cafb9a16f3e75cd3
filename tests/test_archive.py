"""The programs of examples/archive on this machine, with a scheduler and workers of dask and the built rocktray.

The archive is a mailbox of 60 MB, a small one, a mail and a Maildir. After each complete run the shards, in the order of
MANIFEST, are byte for byte what rocktray json writes in one process. The tests run in this order: a worker is killed in the
middle of a part; a run is killed, and continued; a part kills every worker that reads it, and a file cannot be read, and
the next runs complete it; the shards are loaded and searched, before and after the small mailbox changed; and the
commands of docs/SCRIPTS.md for GNU parallel run unchanged. It takes about 30 s.
"""

import bz2
import collections
import contextlib
import glob
import gzip
import importlib
import importlib.util
import json
import lzma
import os
import re
import signal
import sqlite3
import subprocess
import sys
import time

import pytest

from support import FROM, TOP, missing, program, run, text_of

from archive import write_index
from fences import fences_of
from made_mails import mailbox
from readers.html_reader import by_parser

pytestmark = pytest.mark.xdist_group("archive")
EXAMPLES = os.path.join(TOP, "examples", "archive")
# Ctrl-C counts even if the tests run in the background of a shell, which ignores it
INTERRUPTIBLE = ("env", "--default-signal=INT")
sys.path.insert(0, EXAMPLES)

import search  # noqa: E402

SCALE = 6
MAILS = 2000 * SCALE
PART = "all.mbox (--part 9/30)"
# as rocktray, but that a part may kill its worker, once or always, and that each run may take longer
STAND_IN = """#!/bin/sh
[ ! -e '{directory}/slow' ] || sleep 0.1
case $* in
    'json --html-text --hash --part 9/30 '*)
        if [ -e '{directory}/deadly' ]; then
            [ -e '{directory}/always' ] || rm '{directory}/deadly'
            '{json}' "$@" | head -c 100000
            kill -9 "$PPID"
            exit 1
        fi
        ;;
esac
exec '{json}' "$@"
"""
SMALL = (
    b"From: Ana Lima <ana@example.net>\nTo: Bo <bo@example.net>\nSubject: Zebra crossing\nMessage-ID: <1@small>\n"
    b"Date: Mon, 3 Mar 2025 10:00:00 +0000\nContent-Type: multipart/mixed; boundary=b\n\n"
    b"--b\n\nThe quagga is extinct.\n--b\nContent-Type: application/pdf; name=quagga.pdf\n\nx\n--b--\n",
    b"From: Bo <bo@example.net>\nSubject: Re: Zebra crossing\nMessage-ID: <2@small>\nIn-Reply-To: <1@small>\n"
    b"Date: Tue, 4 Mar 2025 10:00:00 +0000\nContent-Type: text/html\n\n"
    b"<style>dodo</style><p title='okapi > kakapo'>So is the <b>aur</b>ochs,<br>the kak&aacute;po&hellip;<!-- moa > huia --></p>\n",
    b" kept\n",
    b"From: \x1b[31mCai@example.net\nSubject: =?utf-8?q?Zebra=0Aforged?=\nMessage-ID: <3@small>\nReferences: <0@small> <2@small>\n\n.\n",
)
UNREAD = "mails/no.mbox"
CHANGED = b"Subject: Changed\nMessage-ID: <4@small>\n\nAn okapi.\n"

# after this number of further deaths a part is given up; dask's own number is 3
DASK = {"DASK_DISTRIBUTED__SCHEDULER__ALLOWED_FAILURES": "1"}
# on a machine with other work dask speaks of heartbeats that came late, which is not what is compared, and connects slowly
QUIET = {"DASK_LOGGING__DISTRIBUTED": "critical"}
QUIET |= {f"DASK_DISTRIBUTED__COMM__TIMEOUTS__{name}": "120s" for name in ("CONNECT", "TCP")}


def write(path, data=b""):
    """Writes a file, in a directory that is made where it has to be."""
    os.makedirs(os.path.dirname(path), exist_ok=True)
    with open(path, "wb") as file:
        file.write(data)


def make_archive(directory):
    """Makes the archive; returns the calls of rocktray json that read it."""
    mails = os.path.join(directory, "mails")
    write(f"{mails}/all.mbox", mailbox(SCALE))
    write(f"{mails}/many.eml", b"A:\n" * 1_000_000)
    write(f"{mails}/one.eml", b"Subject: one\nMessage-ID: <one>\n\nunique\n")
    write(f"{mails}/small.mbox", b"".join(FROM + mail + b"\n" for mail in SMALL))
    for name in (".Sent/cur/1:2,S", ".old/a", "cur/10:2,", "cur/2:2,S", "new/1", "tmp/3", "cur/.x", "index"):
        write(f"{mails}/people/ana/{name}", FROM + b"Message-ID: <" + name.encode() + b">\n\nx\n")
    write(f"{mails}/.hidden/x")
    return [
        ["--part", "1/1", *(f"{mails}/{name}" for name in ("all.mbox", "many.eml", "one.eml", "small.mbox"))],
        ["--mail", f"{mails}/people/ana/.Sent/cur/1:2,S"],
        ["--part", "1/1", f"{mails}/people/ana/.old/a"],
        ["--mail", *(f"{mails}/people/ana/{name}" for name in ("cur/10:2,", "cur/2:2,S", "new/1"))],
    ]


def dask(stack, directory, name, *arguments):
    """Starts a program of dask, which ends with the stack; what it says goes to a file of this name."""
    log = stack.enter_context(open(os.path.join(directory, name), "wb"))
    process = subprocess.Popen(
        [sys.executable, "-m", "dask", *arguments], cwd=directory, stdout=log, stderr=log, env={**os.environ, **QUIET, **DASK}
    )
    stack.callback(process.wait)
    stack.callback(process.terminate)
    return process


def wait_for(condition, what):
    """Waits until a condition holds."""
    begun = time.monotonic()
    while not condition():
        if time.monotonic() - begun > 120:
            pytest.fail(f"{what} takes more than 120 s")
        time.sleep(0.02)


def shards(out):
    """The shards of a directory, and when each was written."""
    return {path: os.stat(path).st_mtime_ns for path in glob.glob(os.path.join(out, "*.jsonl"))}


def lines(out):
    """The lines of all shards, in the order of MANIFEST."""
    found = b""
    with open(os.path.join(out, "MANIFEST"), encoding="utf-8") as manifest:
        for line in map(json.loads, manifest):
            if "shard" in line:
                with open(os.path.join(out, line["shard"]), "rb") as shard:
                    found += shard.read()
    return found


def manifest(out, key):
    """The values of the lines of MANIFEST that have a key."""
    with open(os.path.join(out, "MANIFEST"), encoding="utf-8") as lines:
        return [line[key] for line in map(json.loads, lines) if key in line]


class Runs:
    """Runs of the programs over an archive."""

    def __init__(self, directory, scheduler):
        self.directory = directory
        self.arguments = [os.path.join(directory, "mails"), "--program", os.path.join(directory, "rocktray"), "--bytes", "2000000"]
        self.scheduler = scheduler

    def start(self, name, *arguments):
        """Starts index_archive.py, which writes to the directory of this name."""
        arguments = [os.path.join(EXAMPLES, "index_archive.py"), os.path.join(self.directory, name), *self.arguments, *arguments]
        environment = {**os.environ, **QUIET}
        return subprocess.Popen([sys.executable, *arguments], stdout=subprocess.DEVNULL, stderr=subprocess.PIPE, env=environment)

    def index(self, name, *arguments):
        """Runs it; returns its status and what it says."""
        process = self.start(name, *(arguments or ["--scheduler", self.scheduler]))
        told = process.communicate()[1].decode()
        return process.returncode, told

    def call(self, name, *arguments):
        """What another program writes."""
        return subprocess.run([sys.executable, os.path.join(EXAMPLES, name), *arguments], capture_output=True, cwd=self.directory, check=False)

    def search(self, *arguments):
        """The subjects of the mails that a search finds."""
        ended = self.call("search.py", "db", *arguments)
        assert ended.returncode == (0 if ended.stdout else 1), f"search.py {arguments}"
        assert not re.search(rb"[^\t\n -~\x80-\xff]", ended.stdout), f"search.py {arguments}: control characters"
        return [line.split("\t")[2] for line in ended.stdout.decode().splitlines()]

    def path(self, name):
        """The path of a file or directory."""
        return os.path.join(self.directory, name)


@pytest.fixture(scope="module")
def directory(tmp_path_factory):
    """The directory of the archive and of what is made of it."""
    return str(tmp_path_factory.mktemp("archive"))


@pytest.fixture(scope="module")
def stack():
    """Ends the programs of dask."""
    with contextlib.ExitStack() as stack:
        yield stack


@pytest.fixture(scope="module")
def wanted(directory):
    """The lines of one process over the archive."""
    calls = make_archive(directory)
    lines = b"".join(run([program("rocktray"), "json", "--html-text", "--hash", *arguments]).stdout for arguments in calls)
    assert lines.count(b"\n") == MAILS + 11
    write(os.path.join(directory, "rocktray"), STAND_IN.format(directory=directory, json=program("rocktray")).encode())
    os.chmod(os.path.join(directory, "rocktray"), 0o755)
    return lines


@pytest.fixture(scope="module")
def scheduler(directory, stack):
    """The file of the scheduler."""
    if importlib.util.find_spec("distributed") is None:
        missing("dask is missing (Debian: python3-distributed)")
    file = os.path.join(directory, "address")
    arguments = ["--host", "127.0.0.1", "--port", "0", "--dashboard-address", "127.0.0.1:0", "--scheduler-file", file]
    dask(stack, directory, "scheduler.log", "scheduler", *arguments)
    wait_for(lambda: os.path.exists(file), "the scheduler")
    return file


@pytest.fixture(scope="module")
def worker_words(directory, scheduler):
    """How a worker is started."""
    return ["worker", "--scheduler-file", scheduler, "--nthreads", "1", "--no-dashboard", "--local-directory", directory]


@pytest.fixture(scope="module")
def workers(directory, stack, worker_words):
    """Two workers, which are not started again."""
    return [dask(stack, directory, f"worker{number}.log", *worker_words, "--no-nanny") for number in (1, 2)]


@pytest.fixture(scope="module")
def nanny(directory, stack, worker_words):
    """A worker that is started again."""
    return dask(stack, directory, "nanny.log", *worker_words)


@pytest.fixture(scope="module")
def runs(directory, scheduler, wanted):
    """Runs of the programs."""
    with open(scheduler, encoding="utf-8") as file:
        return Runs(directory, json.load(file)["address"])



def test_killed(runs, wanted, workers):
    """A worker that is killed in the middle of a part."""
    write(runs.path("deadly"))
    assert runs.index("killed")[0] == 0, "a worker is killed"
    assert sorted(worker.poll() or 0 for worker in workers) == [-signal.SIGKILL, 0], "how the workers are"
    assert lines(runs.path("killed")) == wanted, "a worker is killed: the lines"


def test_broken(runs, wanted, nanny):
    """A run that is broken off, and goes on where it was."""
    out = runs.path("broken")
    write(runs.path("slow"))
    process = runs.start("broken", "--scheduler", runs.scheduler)
    wait_for(lambda: len(shards(out)) >= 5, "the run that is broken off")
    process.kill()
    process.communicate()
    assert not os.path.exists(os.path.join(out, "MANIFEST")), "broken off: there is no MANIFEST"
    os.remove(runs.path("slow"))
    before = shards(out)
    assert runs.index("broken")[0] == 0, "a run goes on"
    assert before.items() <= shards(out).items(), "a run goes on: no part is read twice"
    assert lines(out) == wanted, "a run goes on: the lines"


def test_faults(runs, wanted):
    """A part that kills each worker that reads it, and a file that cannot be read; all else is read nevertheless."""
    out = runs.path("faults")
    for name in ("deadly", "always"):
        write(runs.path(name))
    write(runs.path(UNREAD), gzip.compress(b"Subject: 1\n")[:-4])
    write(runs.path("mails/picture"), b"\x89PNG\r\n")
    status, told = runs.index("faults")
    named = [line for line in told.splitlines() if line.startswith("index_archive.py: ")]
    assert status == 1 and any(PART in line and "KilledWorker" in line for line in named), f"a part kills its workers: {told}"
    assert any("no.mbox: gzip: exit status 1" in line for line in named), f"a file cannot be read: {told}"
    assert "index_archive.py: skipped, since they are no mail: 1 PNG images" in named, f"a file is no mail: {told}"
    assert len(shards(out)) > 20, f"the other parts are read: {told}"
    refused = manifest(out, "refused")
    assert any(PART in one for one in refused) and runs.path(UNREAD) in refused, "MANIFEST names what is refused"
    assert manifest(out, "skipped") == [runs.path("mails/picture")], "MANIFEST names what is no mail"
    for name in ("deadly", "always", "mails/picture"):
        os.remove(runs.path(name))
    before = shards(out)
    assert runs.index("faults", "--scheduler", runs.scheduler, "--skip-bad")[0] == 0, "--skip-bad"
    assert lines(out) == wanted and manifest(out, "refused") == [runs.path(UNREAD)], "the next run: all but the bad file"
    os.remove(runs.path(UNREAD))
    assert runs.index("faults")[0] == 0, "the next run completes it"
    assert before.items() <= shards(out).items(), "the next run reads no part twice"
    assert lines(out) == wanted, "the next run: the lines"


def test_packed(tmp_path):
    """Packed files are unpacked, mails of a Maildir too, and names may have any bytes."""
    box, mail = b"".join(FROM + mail + b"\n" for mail in SMALL), FROM + SMALL[0]
    for name, data in (
        ("a.gz", gzip.compress(box)), ("b.xz", lzma.compress(box)), ("c.bz2", bz2.compress(box)), ("d", box), ("e", gzip.compress(box)),
        ("f.xz", b""), ("caf\udce9", mail), ("m/cur/1.gz", gzip.compress(mail)), ("m/cur/2.gz", mail),
    ):
        write(f"{tmp_path}/mails/{name}", data)
    script = [sys.executable, os.path.join(EXAMPLES, "index_archive.py"), "out", "mails", "--program", program("rocktray")]
    ended = subprocess.run(script, cwd=tmp_path, capture_output=True, env={**os.environ, **QUIET}, check=False)
    assert (ended.returncode, ended.stderr) == (0, b"")
    found = [json.loads(line) for line in lines(f"{tmp_path}/out").splitlines()]
    counts = {os.path.basename(file): sum(line["file"] == file for line in found) for file in {line["file"] for line in found}}
    boxes, mails = dict.fromkeys(("a.gz", "b.xz", "c.bz2", "d", "e"), len(SMALL)), dict.fromkeys(("caf\\xe9", "f.xz", "1.gz", "2.gz"), 1)
    assert counts == {**boxes, **mails}
    plain = [{**line, "file": None, "number": None} for line in found if line["file"].endswith("d")]
    assert [{**line, "file": None, "number": None} for line in found if line["file"].endswith("a.gz")] == plain
    load = [sys.executable, os.path.join(EXAMPLES, "load_sqlite.py"), "out", "db"]
    assert subprocess.run(load, cwd=tmp_path, capture_output=True, check=False).returncode == 0
    for name in ("a.gz", "b.xz", "c.bz2", "caf\\xe9"):
        with contextlib.ExitStack() as stack:
            dbs = [stack.enter_context(contextlib.closing(sqlite3.connect(path))) for path in glob.glob(f"{tmp_path}/db/[0-9]*.sqlite")]
            query = 'select file, start, "end" from copies where file like ?'
            file, start, end = next(row for db in dbs for row in db.execute(query, (f"%{name}",)))
        raw = search.bytes_of({"file": os.path.join(tmp_path, file), "start": start, "end": end})
        assert raw in (mail[len(FROM) :], *SMALL), f"the bytes of a mail of {name}"


@pytest.mark.quick
def test_names_in_messages(tmp_path):
    """The name of a file, which others may choose in a Maildir, forges no line of a message."""
    write(f"{tmp_path}/mails/cur/1\nindex_archive.py: all is well\x1b[31m\u202e", b"Subject: 1\n\n")
    write(f"{tmp_path}/rocktray", b"#!/bin/sh\nexit 1\n")
    os.chmod(f"{tmp_path}/rocktray", 0o755)
    ended = called(tmp_path, "index_archive.py", "out", "mails", "--program", "./rocktray")
    wanted = f"index_archive.py: {tmp_path}/mails/cur/1\ufffdindex_archive.py: all is well\ufffd[31m\ufffd (--mail): exit status 1: \n"
    assert (ended.returncode, ended.stderr) == (1, wanted)


@pytest.mark.quick
def test_one_run_at_a_time(tmp_path):
    """A second run into one directory ends and removes nothing; when the first has ended, or was killed, it reads on."""
    for name in ("a", "b"):
        write(f"{tmp_path}/{name}/mail", b"Subject: %b\n\n" % name.encode())
    write(f"{tmp_path}/rocktray", b"#!/bin/sh\n[ -e go ] || { touch begun; sleep 60 & wait; }\nexec echo \"$@\"\n")
    os.chmod(f"{tmp_path}/rocktray", 0o755)
    script = [sys.executable, os.path.join(EXAMPLES, "index_archive.py"), "out"]
    with subprocess.Popen([*script, "a", "--program", "./rocktray"], cwd=tmp_path, stderr=subprocess.PIPE, start_new_session=True) as first:
        wait_for(lambda: os.path.exists(f"{tmp_path}/begun"), "the first run")
        before = sorted(os.listdir(f"{tmp_path}/out"))
        second = subprocess.run([*script, "b", "--program", "./rocktray"], cwd=tmp_path, capture_output=True, text=True, timeout=60, check=False)
        wanted = f"index_archive.py: another run writes to {tmp_path}/out: wait until it has ended\n"
        assert (second.returncode, second.stderr, sorted(os.listdir(f"{tmp_path}/out"))) == (2, wanted, before)
        os.killpg(first.pid, signal.SIGKILL)
    write(f"{tmp_path}/go")
    assert subprocess.run([*script, "b", "--program", "./rocktray"], cwd=tmp_path, timeout=60, check=False).returncode == 0
    assert lines(f"{tmp_path}/out").decode().split()[-1] == f"{tmp_path}/b/mail" and len(shards(f"{tmp_path}/out")) == 1


@pytest.mark.quick
def test_messages_of_unpackers(tmp_path):
    """An unpacker that writes more messages than a pipe has space for ends nevertheless, and so does its part."""
    write(f"{tmp_path}/bin/gzip", b"#!/bin/sh\nhead -c 300000 /dev/zero | tr '\\0' m >&2\nexec /bin/cat \"$3\"\n")
    write(f"{tmp_path}/rocktray", b"#!/bin/sh\nexec wc -c\n")
    for name in ("bin/gzip", "rocktray"):
        os.chmod(f"{tmp_path}/{name}", 0o755)
    write(f"{tmp_path}/mails/a.gz", b"\x1f\x8b" + b"x" * 200_000)
    script = [sys.executable, os.path.join(EXAMPLES, "index_archive.py"), "out", "mails", "--program", "./rocktray"]
    environment = {**os.environ, "PATH": f"{tmp_path}/bin:{os.environ['PATH']}"}
    ended = subprocess.run(script, cwd=tmp_path, capture_output=True, env=environment, timeout=60, check=False)
    assert (ended.returncode, ended.stderr, lines(f"{tmp_path}/out")) == (0, b"", b"200002\n")
    write(f"{tmp_path}/bin/gzip", b"#!/bin/sh\nhead -c 300000 /dev/zero | tr '\\0' m >&2\nexit 3\n")
    os.remove(f"{tmp_path}/out/{os.path.basename(next(iter(shards(f'{tmp_path}/out'))))}")
    ended = subprocess.run(script, cwd=tmp_path, capture_output=True, env=environment, timeout=60, check=False)
    assert ended.returncode == 1 and b"a.gz: gzip: exit status 3: mmm" in ended.stderr and len(ended.stderr) < 5000


def test_interrupted(tmp_path):
    """Ctrl-C is one line, and the next run goes on."""
    write(f"{tmp_path}/mails/a", SMALL[0])
    write(f"{tmp_path}/slow", b"#!/bin/sh\ntouch begun\nsleep 60\n")
    os.chmod(f"{tmp_path}/slow", 0o755)
    script = [*INTERRUPTIBLE, sys.executable, os.path.join(EXAMPLES, "index_archive.py"), "out", "mails", "--program", "./slow"]
    with subprocess.Popen(script, cwd=tmp_path, stdout=subprocess.PIPE, stderr=subprocess.PIPE, env={**os.environ, **QUIET}, start_new_session=True) as process:
        wait_for(lambda: os.path.exists(f"{tmp_path}/begun"), "the first part")
        os.killpg(process.pid, signal.SIGINT)
        told = process.communicate()[1]
    assert (process.returncode, told) == (130, b"index_archive.py: interrupted; the next run goes on from here\n")


def test_interrupted_load(runs):
    """Ctrl-C while the shards are loaded is one line too, and leaves nothing that the next run cannot use."""
    script = [*INTERRUPTIBLE, sys.executable, os.path.join(EXAMPLES, "load_sqlite.py"), runs.path("killed"), runs.path("interrupted")]
    with subprocess.Popen(script, stderr=subprocess.PIPE, start_new_session=True) as process:
        wait_for(lambda: len(glob.glob(runs.path("interrupted/.load-*/*"))) >= 8, "the first shards")
        os.killpg(process.pid, signal.SIGINT)
        told = process.communicate()[1]
    assert (process.returncode, told) == (130, b"load_sqlite.py: interrupted; the next run goes on from here\n")
    assert not glob.glob(runs.path("interrupted/.load-*")), "what was made on the way is removed"
    assert b" mails loaded" in runs.call("load_sqlite.py", "killed", "interrupted").stderr
    assert runs.call("search.py", "interrupted", "zebra", "--limit", "1").returncode == 0


def check_loaded(runs, mails):
    """Loads the shards: every mail has to be there once, and what was refused."""
    ended = runs.call("load_sqlite.py", "killed", "db")
    assert ended.returncode == 0, f"load_sqlite.py: {ended.stderr.decode()}"
    ids, copies, refused = [], 0, 0
    for path in glob.glob(runs.path("db/[0-9]*.sqlite")):
        with contextlib.closing(sqlite3.connect(path)) as db:
            db.execute("insert into texts(texts) values('integrity-check')")
            ids += [one for one, in db.execute("select message_id from mails")]
            copies += db.execute("select count(*) from copies").fetchone()[0]
            refused += db.execute("select count(*) from refused").fetchone()[0]
    assert (len(ids), len(set(ids)), copies, refused) == (mails, mails, mails, 1), "every mail once, and what was refused"
    return ended.stderr.decode()


def test_loaded(runs):
    """The shards are loaded."""
    check_loaded(runs, MAILS + 10)


def test_searched(runs):
    """Searches, whose mails are known."""
    first, answer, forged = "Zebra crossing", "Re: Zebra crossing", "Zebra\ufffdforged"
    for arguments, wanted in (
        (["zebra"], [answer, first, forged]),
        (["zebra", "quagga"], [first]),
        (['"quagga is"'], [first]),
        (['"is quagga"'], []),
        (["zebra", "NOT", "quagga"], [answer, forged]),
        (["subject:", "zebra"], [answer, first, forged]),
        (["body: zebra"], []),
        (["auroch*"], [answer]),
        (['"so is the aurochs the kakapo"'], [answer]),
        *((([word], []) for word in ("okapi", "dodo", "moa", "huia", "aacute"))),
        (["--from", "ana@example.net"], [first]),
        (["crossing", "--from", "bo"], [answer]),
        (["zebra", "--after", "2025-03-04"], [answer]),
        (["zebra", "--before", "2025-03-04"], [first]),
        (["--attachment", "QUAGGA"], [first]),
        (["--id", "2@small"], [answer]),
        (["--to", "bo@example.net"], [first]),
        (["zebra", "--has", "attachment"], [first]),
        (["--thread", "3@small"], [first, f"  {answer}", f"    {forged}"]),
        (["zebra", "--limit", "1"], [answer]),
        (["zebra", "quagga", "--threads"], [first, f"  {answer}", f"    {forged}"]),
    ):
        assert runs.search(*arguments) == wanted, f"search.py {arguments}"
    assert len(runs.search("--attachment", "i.png", "--limit", "99999")) == MAILS, "search.py --attachment i.png"
    assert len(runs.search("--from", "from17@example.org")) == 1, "search.py --from from17@example.org"


def test_changed(runs):
    """The small mailbox changes, and is read and loaded anew, by workers that the run starts itself."""
    write(runs.path("mails/small.mbox"), b"".join(FROM + mail + b"\n" for mail in (CHANGED, *SMALL[1:])))
    before = shards(runs.path("killed"))
    assert runs.index("killed", "--bytes", "2000000") == (0, ""), "a mailbox has changed"
    after = shards(runs.path("killed"))
    assert (len(before.items() - after.items()), len(after.items() - before.items())) == (1, 1), "old and new shards"
    assert " mails loaded" in check_loaded(runs, MAILS + 10), "a mailbox has changed"
    assert runs.search("quagga") == [], "what is gone"
    assert runs.search("okapi") == ["Changed"], "what is new"


def test_outputs(runs):
    """The bytes of a mail, a mailbox, objects, and what is wrong."""
    raw = runs.call("search.py", "db", "--id", "2@small", "--raw")
    assert (raw.returncode, raw.stdout) == (0, SMALL[1]), "--raw"
    mbox = runs.call("search.py", "db", "--id", "2@small", "--mbox").stdout
    assert mbox == b"From MAILER-DAEMON Tue Mar  4 10:00:00 2025\n" + SMALL[1] + b"\n", "--mbox"
    found = json.loads(runs.call("search.py", "db", "--id", "2@small", "--json").stdout)
    assert (found["message_id"], found["subject"], found["copies"]) == ("2@small", "Re: Zebra crossing", 1), "--json"
    shown = runs.call("search.py", "db", "--id", "2@small", "--show", "--program", program("rocktray"))
    assert b"Re: Zebra crossing" in shown.stdout, "--show"
    assert runs.call("search.py", "db", "--id", "none").returncode == 1, "nothing is found"
    for arguments in (["ana@example.net"], ["--after", "yesterday"], ["zebra", "(", "--raw"]):
        ended = runs.call("search.py", "db", *arguments)
        assert ended.returncode == 2 and ended.stdout == b"", f"search.py {arguments}"


def test_copies(runs):
    """A second copy of a mailbox adds copies and no mails; when it is gone, so are they."""
    os.link(runs.path("mails/small.mbox"), runs.path("mails/copy.mbox"))
    for copies, index in ((2, True), (1, False)):
        if not index:
            os.remove(runs.path("mails/copy.mbox"))
        assert runs.index("killed", "--bytes", "2000000") == (0, ""), "copies are read"
        assert runs.call("load_sqlite.py", "killed", "db").returncode == 0, "copies are loaded"
        line = runs.call("search.py", "db", "--id", "2@small").stdout.decode().split("\t")
        assert line[4] == str(copies), "the number of copies"


def test_older_database(runs):
    """A database of version 1 is not searched, and is loaded anew beside itself: until all is read, it stays."""
    path = runs.path("db/000.sqlite")
    with contextlib.closing(sqlite3.connect(path)) as db:
        db.executescript("drop table copies; pragma user_version = 1")
    ended = runs.call("search.py", "db", "zebra")
    wanted = b"search.py: db is of another version than 5: run load_sqlite.py again\n"
    assert (ended.returncode, ended.stdout, ended.stderr) == (2, b"", wanted), "an older database is searched"
    shard = next(iter(shards(runs.path("killed"))))
    with open(shard, "rb") as file:
        whole = file.read()
    write(shard, whole + b"{")
    assert runs.call("load_sqlite.py", "killed", "db").returncode == 1, "a damaged shard"
    assert search.version_of(path) == 1, "a damaged shard: the older database stays"
    write(shard, whole)
    check_loaded(runs, MAILS + 10)
    assert search.version_of(path) == search.VERSION and not glob.glob(runs.path("db/*.new*")), "the older database is replaced"
    assert runs.search("okapi") == ["Changed"], "a database that is loaded anew"


def line_of(message_id, **members):
    """A line of a mail with a text, as rocktray json writes it, with these members."""
    part = {"path": "1", "type": "text/plain", "extracted": False, "file_name": None, "text": "word", "text_files": [], "headers": [], "start": 0, "end": 9}
    line = {"schema": 6, "file": "box", "number": 1, "start": 0, "end": 9, "subject": "Zebra", "date": 1_000_000_000}
    line.update({name: [] for name in ("from", "to", "cc", "bcc", "in_reply_to", "references", "forwarded")}, parts=[part])
    return {**line, "message_id": [message_id] if message_id is not None else [], **members}


def write_shards(directory, *shards):
    """Writes an index of shards, each a list of lines."""
    names = [f"{number:032x}.jsonl" for number in range(len(shards))]
    for name, lines in zip(names, shards):
        write(f"{directory}/out/{name}", b"".join(json.dumps(line).encode() + b"\n" for line in lines))
    write(f"{directory}/out/MANIFEST", b"".join(json.dumps({"shard": name}).encode() + b"\n" for name in names))


def called(directory, name, *arguments):
    """What a program of the archive returns."""
    return subprocess.run([sys.executable, os.path.join(EXAMPLES, name), *arguments], capture_output=True, text=True, cwd=directory, check=False)


def rows_of(directory, query):
    """The rows of a query in all slices."""
    rows = []
    for path in glob.glob(f"{directory}/db/[0-9]*.sqlite"):
        with contextlib.closing(sqlite3.connect(path)) as db:
            rows += db.execute(query)
    return sorted(rows)


@pytest.mark.quick
def test_ids_with_nul(tmp_path):
    """Ids that contain a NUL are other ids than their beginnings, in later shards, in threads and in a second run too."""
    ids = ("a\0b@c", "a", "a\0", "\0")
    lines = [line_of(one, start=start, references=ids[:1], subject=repr(one)) for start, one in enumerate(ids)]
    write_shards(tmp_path, lines, [{**line, "file": "copy"} for line in lines])
    for arguments in (["--slices", "2"], []):
        ended = called(tmp_path, "load_sqlite.py", "out", "db", *arguments)
        assert ended.returncode == 0, ended.stderr
    assert rows_of(tmp_path, "select message_id, (select count(*) from copies where mail = id) from mails") == sorted((one, 2) for one in ids)
    write_shards(tmp_path, lines, lines, [{**line, "file": "third"} for line in lines])
    assert called(tmp_path, "load_sqlite.py", "out", "db").returncode == 0
    assert {copies for copies, in rows_of(tmp_path, "select (select count(*) from copies where mail = id) from mails")} == {3}
    for arguments in (["zebra", "--threads"], ["--threads", "--id", "a"], ["--thread", "a"]):
        ended = called(tmp_path, "search.py", "db", *arguments)
        found = {line.split("\t")[2].strip() for line in ended.stdout.splitlines()}
        assert found == ({repr(one) for one in ids} if arguments[0] != "zebra" else set()) and ended.returncode < 2, ended


@pytest.mark.quick
def test_mails_with_one_id(tmp_path):
    """Mails with one id that differ are all there, whichever came first, and copies with the same bytes are one mail."""
    file = {"path": "2", "type": "application/pdf", "extracted": True, "file_name": "a.pdf", "text": None, "text_files": [], "headers": []}
    text, forwarded = line_of("1@x")["parts"][0], {"path": "2", "start": 100, "error": None}

    def mail(start, file_name, **members):
        parts = [{**text, "start": start, "end": start + 9}, {**file, "start": start + 9, "end": start + 20, **members.pop("pdf", {})}]
        inside = [{**forwarded, "start": start + 15}]
        return line_of("1@x", **{"file": file_name, "number": start, "start": start, "end": start + 20, "parts": parts, "forwarded": inside, **members})

    first, again, none = mail(0, "a"), mail(700, "b"), line_of(None, start=5, end=14, parts=[{**text, "start": 5, "end": 14}])
    others = [mail(1, "c", subject="Okapi"), mail(2, "c", pdf={"sha256": "ab"}), mail(3, "c", end=24), mail(4, "c", date=None)]
    for names, shards in (("first", [[first, again], [*others, none], [mail(9, "d"), {**none, "file": "e"}]]), ("last", [[*others, none], [mail(9, "d"), {**none, "file": "e"}], [again, first]])):
        directory = tmp_path / names
        write_shards(directory, *shards)
        assert called(directory, "load_sqlite.py", "out", "db", "--slices", "3").returncode == 0
        counts = rows_of(directory, "select message_id is null, subject, (select count(*) from copies where mail = id) from mails")
        assert counts == [(0, "Okapi", 1), (0, "Zebra", 1), (0, "Zebra", 1), (0, "Zebra", 1), (0, "Zebra", 3), (1, "Zebra", 2)], names
        found = called(directory, "search.py", "db", "--id", "1@x", "--json")
        assert [json.loads(line)["same_id"] for line in found.stdout.splitlines()] == [5] * 5
        assert called(directory, "search.py", "db", "okapi").returncode == 0, "a later mail is found by its words"
        thread = called(directory, "search.py", "db", "--thread", "1@x").stdout.splitlines()
        assert len(thread) == 5 and not any(line.split("\t")[2].startswith(" ") for line in thread)
        raw = called(directory, "search.py", "db", "--id", "1@x", "--raw")
        assert raw.returncode == 1 and "5 are found" in raw.stderr
        write_shards(directory, *shards[:1])
        assert called(directory, "load_sqlite.py", "out", "db").returncode == 0
        assert sum(count for count, in rows_of(directory, "select count(*) from mails")) == len(shards[0]) - (names == "first"), "those without a copy are gone"


@pytest.mark.quick
def test_changed_files(tmp_path):
    """The bytes of a mailbox that changed since it was indexed are not written as those of a mail, whatever they are."""
    box, packed = tmp_path / "box", tmp_path / "box.gz"
    box.write_bytes(SMALL[1])
    packed.write_bytes(gzip.compress(SMALL[1]))
    index = importlib.import_module("index_archive")
    parts = [[["--part", "1/1"], [index.state(str(box))]], [["--label", str(packed)], [index.state(str(packed))]]]
    (tmp_path / "out").mkdir()
    index.write_manifest(str(tmp_path / "out"), [(part, None) for part in parts], "version", index.Found(None))
    for number, (path, part) in enumerate(zip((box, packed), parts)):
        line = line_of(f"{number}@x", subject=path.name, file=str(path), end=len(SMALL[1]))
        write(f"{tmp_path}/out/{index.shard_of('version', part)}", json.dumps(line).encode() + b"\n")
    assert called(tmp_path, "load_sqlite.py", "out", "db").returncode == 0
    for number, path in enumerate((box, packed)):
        times = os.stat(path).st_atime_ns, os.stat(path).st_mtime_ns
        arguments = ("search.py", "db", "--id", f"{number}@x", "--raw")
        assert called(tmp_path, *arguments).stdout == SMALL[1].decode()
        whole = path.read_bytes()
        for data, more in ((whole[:-1] + b"?", 1), (whole + b"x", 0), (b"x" + whole, 1), (whole[:-1], 0)):
            path.write_bytes(data)
            os.utime(path, ns=(times[0], times[1] + more))
            ended = called(tmp_path, *arguments)
            assert (ended.returncode, ended.stdout) == (2, "") and "changed since it was indexed: run index_archive.py" in ended.stderr, ended
        path.write_bytes(whole)
        os.utime(path, ns=times)
        assert called(tmp_path, *arguments).stdout == SMALL[1].decode()


@pytest.mark.quick
def test_mails_that_sqlite_refuses(tmp_path):
    """A mail with a value that SQLite does not take is refused with the reason, and all others are loaded."""
    bad = {"date": 2**63}, {"subject": "\ud800"}, {"subject": {}}
    lines = [line_of(f"{number}@x", start=number, **(bad[number // 10] if number % 10 == 7 and number < 30 else {})) for number in range(50)]
    write_shards(tmp_path, lines[:40], lines[40:])
    ended = called(tmp_path, "load_sqlite.py", "out", "db", "--slices", "2")
    assert ended.returncode == 0 and "50 mails loaded" in ended.stderr and "3 of the mails were refused" in ended.stderr, ended.stderr
    refused = rows_of(tmp_path, 'select start, "end", error from refused')
    assert [row[:2] for row in refused] == [(7, 9), (17, 9), (27, 9)]
    assert all(error.startswith("SQLite does not take this mail: ") for _, _, error in refused)
    ids = rows_of(tmp_path, "select message_id from mails")
    assert ids == sorted((f"{number}@x",) for number in range(50) if number not in (7, 17, 27))


@pytest.mark.quick
def test_shard_that_cannot_be_loaded(tmp_path):
    """If a slice takes no rows of a shard, a line says so, and the next run loads it."""
    shards = [[line_of(f"{number}@x", start=number)] for number in range(3)]
    write_shards(tmp_path, *shards[:1])
    assert called(tmp_path, "load_sqlite.py", "out", "db", "--slices", "1").returncode == 0
    with contextlib.closing(sqlite3.connect(f"{tmp_path}/db/000.sqlite")) as db:
        db.executescript("create trigger stop before insert on shards when new.name like '%1.jsonl' begin select raise(abort, 'no more'); end")
    write_shards(tmp_path, *shards)
    ended = called(tmp_path, "load_sqlite.py", "out", "db")
    wanted = f"load_sqlite.py: {1:032x}.jsonl is not loaded into db/000.sqlite: no more; the next run tries it again"
    assert ended.returncode == 1 and ended.stderr.splitlines()[1:] == [wanted], ended.stderr
    assert rows_of(tmp_path, "select message_id from mails") == [("0@x",), ("2@x",)]
    with contextlib.closing(sqlite3.connect(f"{tmp_path}/db/000.sqlite")) as db:
        db.executescript("drop trigger stop")
    assert called(tmp_path, "load_sqlite.py", "out", "db").returncode == 0
    assert rows_of(tmp_path, "select message_id from mails") == [("0@x",), ("1@x",), ("2@x",)]


@pytest.fixture(scope="module")
def latest(tmp_path_factory):
    """A directory with a database of 2000 mails, and the words in them."""
    directory = tmp_path_factory.mktemp("latest")
    words = write_index(str(directory / "out"), 2000)
    loader = [sys.executable, os.path.join(EXAMPLES, "load_sqlite.py"), "out", "db", "--slices", "3"]
    subprocess.run(loader, cwd=directory, capture_output=True, check=True)
    return directory, words


@pytest.mark.quick
@pytest.mark.parametrize("common", [0, 10**9])
@pytest.mark.parametrize("cost", [0, 10**9])
def test_latest(latest, monkeypatch, common, cost):
    """The latest mails and their number, in whichever way they are looked for, are those whose lines have the words."""
    directory, words = latest
    with open(directory / "out" / f"{0:032x}.jsonl", encoding="utf-8") as file:
        mails = sorted(map(json.loads, file), key=lambda line: -line["date"])
    monkeypatch.setattr(search, "COMMON", common)
    texts = {line["number"]: set(re.findall(r"\w+", f"{line['subject']} {line['from']} {line['to']} {line['parts'][0]['text']}")) for line in mails}
    pdf = search.with_file("type = ?", "application/pdf")
    with contextlib.ExitStack() as stack:
        slices = [stack.enter_context(contextlib.closing(search.opened(path))) for path in search.slices_of(str(directory / "db"))]
        assert len(slices) == 3
        for wheres, meets in (
            ([search.with_words(words[0])], lambda line: words[0] in texts[line["number"]]),
            ([search.with_words(f"{words[0]} {words[1]}")], lambda line: {*words[:2]} <= texts[line["number"]]),
            ([search.with_words(words[3000])], lambda line: words[3000] in texts[line["number"]]),
            ([pdf], lambda line: line["parts"][-1]["type"] == "application/pdf"),
            ([search.with_words(words[0]), pdf], lambda line: words[0] in texts[line["number"]] and line["parts"][-1]["type"] == "application/pdf"),
            ([search.with_words(words[0]), ("date < ?", 1_000_500_000)], lambda line: words[0] in texts[line["number"]] and line["number"] < 1000),
            ([("list_id = ?", "l5.example")], lambda line: line["number"] % 200 == 5 and line["number"] % 3),
            ([], lambda line: True),
        ):
            wanted = [line["message_id"][0] for line in mails if meets(line)]
            wheres = [it._replace(cost=cost) if isinstance(it, search.Among) else it for it in wheres]
            for first, last in ((0, 20), (25, 50)):
                chosen, total, is_whole = search.latest(slices, wheres, last)
                found = [mail["message_id"] for mail, _, _ in search.mails_of(slices, chosen, first, last)]
                assert (found, total, is_whole) == (wanted[first:last], len(wanted), True), wheres
                chosen, total, is_whole = search.latest(slices, wheres, last, 30)
                found = [mail["message_id"] for mail, _, _ in search.mails_of(slices, chosen, first, last)]
                assert found == wanted[first:last], (wheres, "some are counted")
                assert total == len(wanted) if is_whole else 30 <= total <= len(wanted), (wheres, "some are counted")
            assert [mail["message_id"] for mail, _, _ in search.found_in(slices, wheres, None)[0]] == wanted, wheres


def test_bad_file_of_a_batch(tmp_path):
    """Of files that are read together, only those that cannot be read are refused; the next run reads these alone."""
    for number in range(40):
        write(f"{tmp_path}/mails/cur/{number:02}", b"Subject: %d\n\n" % number)
    bad = [f"{tmp_path}/mails/cur/{number:02}" for number in (17, 18, 31)]
    script = f"#!/bin/sh\nfor bad in {' '.join(bad)}; do\n"
    script += f"    case $* in *$bad*) [ -e {tmp_path}/mended ] || {{ echo \"$bad: gone\" >&2; exit 1; }} ;; esac\ndone\n"
    write(f"{tmp_path}/rocktray", f"{script}exec {program('rocktray')} \"$@\"\n".encode())
    os.chmod(f"{tmp_path}/rocktray", 0o755)
    script = [sys.executable, os.path.join(EXAMPLES, "index_archive.py"), "out", "mails", "--program", "./rocktray"]
    ended = subprocess.run(script, cwd=tmp_path, capture_output=True, text=True, env={**os.environ, **QUIET}, check=False)
    wanted = "".join(f"index_archive.py: {path} (--mail): exit status 1: {path}: gone\n" for path in bad)
    assert (ended.returncode, ended.stderr) == (1, wanted)
    assert manifest(f"{tmp_path}/out", "refused") == [f"{path} (--mail)" for path in bad]
    subjects = [json.loads(line)["subject"] for line in lines(f"{tmp_path}/out").splitlines()]
    assert subjects == [str(number) for number in range(40) if number not in (17, 18, 31)]
    before = shards(f"{tmp_path}/out")
    assert subprocess.run(script, cwd=tmp_path, stderr=subprocess.DEVNULL, check=False).returncode == 1
    assert shards(f"{tmp_path}/out") == before, "no file that was read is read again"
    write(f"{tmp_path}/mended")
    assert subprocess.run(script, cwd=tmp_path, check=False).returncode == 0
    assert lines(f"{tmp_path}/out").count(b"\n") == 40 and len(shards(f"{tmp_path}/out")) == 1


def test_lists(runs):
    """A line whose addresses are lists, with the hashes of a file and of one in a text."""
    people = [{"name": "Ana Lima", "address": "ana@example.net"}, {"group": "all", "members": [{"name": None, "address": "bo@example.net"}]}]
    file = {"path": "1", "type": "text/plain", "extracted": True, "file_name": "a", "text": None, "sha256": "0123abcd", "text_files": []}
    file["headers"] = [["List-Id", "x <l.example>"]]
    within = {"path": "2.u1", "file_name": "b", "body_start": 0, "body_end": 9, "decoded_size": 3, "sha256": "4567ef"}
    text = {"path": "2", "type": "text/plain", "extracted": False, "file_name": None, "text": "x", "text_files": [within], "headers": []}
    line = {"schema": 6, "from": people, "to": [{"unknown": "cai"}], "cc": [], "bcc": [], "subject": "Lists", "date": None, "parts": [file, text]}
    line.update({name: [] for name in ("message_id", "in_reply_to", "references")}, file="x", start=0, end=1)
    write(runs.path("lists/a.jsonl"), json.dumps(line).encode() + b"\n")
    write(runs.path("lists/MANIFEST"), b'{"shard": "a.jsonl"}\n')
    assert runs.call("load_sqlite.py", "lists", "lists.db").returncode == 0, "addresses in lists"
    for arguments in (["--from", "ana@example.net"], ["--from", "bo"], ["--hash", "0123ABCD"], ["--hash", "4567EF"], ["--list", "L.example"]):
        ended = runs.call("search.py", "lists.db", *arguments)
        wanted = "-\tAna Lima <ana@example.net>, bo@example.net\tLists\ta, b\t1\tx:0-1\n"
        assert ended.stdout.decode() == wanted, f"addresses in lists: {arguments}"
    html = {**file, "type": "text/html", "text": "<p>x", "html_text": None}
    write(runs.path("other/a.jsonl"), json.dumps({**line, "parts": [html]}).encode() + b"\n")
    write(runs.path("other/MANIFEST"), b'{"shard": "a.jsonl"}\n')
    ended = runs.call("load_sqlite.py", "other", "other.db")
    assert ended.returncode == 1 and b"a shard has no text of HTML: repeat index_archive.py" in ended.stderr, "lines without --html-text"
    write(runs.path("old/a.jsonl"), json.dumps({**line, "schema": 5}).encode() + b"\n")
    write(runs.path("old/MANIFEST"), b'{"shard": "a.jsonl"}\n')
    ended = runs.call("load_sqlite.py", "old", "old.db")
    assert ended.returncode == 1 and b"has lines of schema 5, not 6: repeat index_archive.py" in ended.stderr, "older lines"


def test_parallel(runs):
    """What docs/SCRIPTS.md says of GNU parallel, word for word."""
    fence = next(fence.lines for fence in fences_of(text_of("docs/SCRIPTS.md")) if any("read_part.sh" in line for line in fence.lines))
    commands = [line for line in fence if not line.startswith("sbatch ")]
    place = runs.path("parallel")
    os.mkdir(place)
    os.symlink(os.path.join(TOP, "examples"), os.path.join(place, "examples"))
    os.symlink(runs.path("mails/all.mbox"), os.path.join(place, "all.mbox"))
    ended = subprocess.run(["bash", "-ec", "\n".join(commands)], cwd=place, env={**os.environ, "BUILT": "only"}, check=False)
    assert (ended.returncode, len(commands)) == (0, 2), "GNU parallel"
    if ended.returncode == 0:
        wanted = subprocess.run([program("rocktray"), "json", "--part", "1/1", "all.mbox"], cwd=place, stdout=subprocess.PIPE, check=False).stdout
        with open(os.path.join(place, "mails.json"), "rb") as found:
            assert found.read() == wanted, "GNU parallel: the lines"


def test_body():
    """The text of a mail: HTML beside a plain text that is another version of it is left out, unless that is empty."""
    loader = importlib.import_module("load_sqlite")

    def texts(*parts):
        members = ("path", "type", "text", "html_text")
        return loader.body([dict(zip(members, part)) for part in parts])

    versions, plain, html = ("", "multipart/alternative", None), ("1", "text/plain", "p"), ("2", "text/html", "<i>h", "h")
    assert texts(versions, plain, html) == "p", "versions of one text"
    assert texts(versions, ("1", "text/plain", " \n"), html) == texts(html) == "h", "an empty version"
    assert texts(("", "multipart/mixed", None), plain, html) == "p\nh", "texts of their own"
    inside = [("1.0", "multipart/alternative", None), ("1.1", "text/plain", "p"), ("1.2", "text/html", "<i>h", "h")]
    assert texts(("1", "message/rfc822", None), *inside, ("10", "text/html", "<i>x", "x")) == "p\nx", "a forwarded mail"
    related = [("2", "multipart/related", None), ("2.1", "text/html", "<i>h", "h")]
    assert texts(versions, plain, *related) == "p", "HTML with images"


def html_alone(index):
    """The mails of an index whose only texts are HTML: each with its file, where it starts, and the longest of its words, by
    html.parser."""
    for name in glob.glob(os.path.join(index, "*.jsonl")):
        with open(name, encoding="utf-8") as shard:
            for line in map(json.loads, shard):
                texts = [part for part in line.get("parts", ()) if part["text"] and part["text"].strip()]
                text = "\n".join(by_parser(part["text"]) or "" for part in texts)
                if {part["type"] for part in texts} == {"text/html"} and (found := re.findall(r"\b[a-zA-Z]+\b", text)):
                    yield line["file"], line["start"], max(found, key=len)


@pytest.fixture(scope="module")
def real(request, tmp_path_factory):
    """The index and the slices of the real mails, and a client of web.py that shows them."""
    given = request.config.getoption("--real") or pytest.skip("real mails are given by --real")
    directory = tmp_path_factory.mktemp("real")
    script, database = os.path.join(EXAMPLES, "index_archive.py"), str(directory / "db")
    places = [os.path.join(TOP, one) for one in given]
    command = [sys.executable, script, directory / "index", *places, "--program", program("rocktray"), "--skip-bad", "--load", database]
    assert subprocess.run(command, stderr=subprocess.DEVNULL, check=False).returncode == 0
    client = importlib.import_module("web").create_app(database, program("rocktray")).test_client()
    return directory / "index", list(map(search.opened, search.slices_of(database))), client


def test_real_ids(real):
    """No real mail is hidden by another with its id: each is there as its line says, its page too, and its bytes are its own."""
    index, slices, client = real
    loader, made = importlib.import_module("load_sqlite"), []
    for line in map(json.loads, lines(index).splitlines()):
        if "error" in line:
            continue
        (row, to, links, files), place = loader.mail_of(line), (line["file"], line["start"], line["end"])
        query = 'select mail from copies where file = ? and start = ? and "end" = ?'
        [(number, mail)] = [(number, mail) for number, db in enumerate(slices) for mail, in db.execute(query, place)]
        columns = "message_id, date, sender, recipients, subject, list_id, body, digest"
        assert slices[number].execute(f"select {columns} from mails where id = ?", (mail,)).fetchone() == row, place
        names = slices[number].execute("select path, name from attachments where mail = ? order by number", (mail,)).fetchall()
        assert names == [file[:2] for file in files], place
        made.append((row[0], number, mail, place))
    counts = collections.Counter(one for one, _, _ in {it[:3] for it in made if it[0] is not None})
    for one, number, mail, (file, start, end) in made:
        page = client.get(f"/mail/{number}/{mail}").text
        assert ("with this id, which differ" in page) == (counts[one] > 1), (file, start)
        with open(search.path_of(file), "rb") as box:
            assert client.get(f"/raw/{number}/{mail}").data == box.read()[start:end], (file, start)
    assert len(made) >= 100 and max(counts.values()) > 1


def test_real_html(real):
    """Each real mail that has HTML alone is found by a word of its text, and a page of web.py shows this."""
    index, slices, client = real
    mails = list(html_alone(index))
    for path, start, word in mails:
        where = [search.with_words(search.quoted(word)), ("mails.id in (select mail from copies where file = ? and start = ?)", path, start)]
        found, _ = search.found_in(slices, where, None)
        assert found, (path, word)
        shown = client.get(f"/mail/{slices.index(found[0][1])}/{found[0][2]}").text
        # as the search ignores case
        assert word.casefold() in shown.partition("<pre>")[2].partition("</pre>")[0].casefold(), (path, word)
    assert len(mails) >= 20, "mails with HTML alone"
