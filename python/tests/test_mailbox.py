"""Mailboxes: threads, files that are shortened, blocks, pipes and file objects, and inputs that are no mailboxes."""

import bz2
import gzip
import io
import lzma
import os
import random
import subprocess
import sys
import threading
import zipfile

import pytest
from conftest import TOP

import rocktray
from rocktray import _library, _mailbox

LINE = b"From a Fri Jul  8 12:08:34 2011\n"


def succeeds(script, *arguments):
    """Runs a script in a process of its own, where a crash ends no other test."""
    ended = subprocess.run([sys.executable, "-c", script, *map(str, arguments)], capture_output=True, text=True, check=False)
    assert ended.returncode == 0, (ended.returncode, ended.stderr[-3000:])


def numbered(count, size=2000):
    """A mailbox of that many mails, each with its number for a subject."""
    return b"".join(b"%sSubject: %d\n\n%s\n\n" % (LINE, number, b"x" * (size // (1 + number % 3))) for number in range(count))


@pytest.fixture
def box(tmp_path):
    """The path of a mailbox of 2,000 mails, 2.7 MB."""
    (tmp_path / "box").write_bytes(numbered(2000))
    return tmp_path / "box"


def test_threads_share_a_mailbox(box):
    """Each mail goes to one of the threads."""
    succeeds(
        """
import rocktray, sys, threading
for _ in range(20):
    box, found = rocktray.open_mailbox(sys.argv[1]), []
    threads = [threading.Thread(target=lambda: found.extend(mail.header("subject") for mail in box)) for _ in range(4)]
    for thread in threads: thread.start()
    for thread in threads: thread.join()
    assert sorted(map(int, found)) == list(range(2000)), len(found)
""",
        box,
    )


def test_closing_beside_a_thread(box):
    """The thread that iterates gets a ValueError, unless it was at the end."""
    succeeds(
        """
import rocktray, sys, threading, time
ended = []
def read(box):
    try:
        ended.append(sum(1 for mail in box))
    except ValueError as error:
        ended.append(str(error))
for number in range(200):
    box = rocktray.open_mailbox(sys.argv[1])
    thread = threading.Thread(target=read, args=(box,))
    thread.start()
    time.sleep(number * 5e-5)
    box.close()
    thread.join()
assert set(ended) <= {2000, "the mailbox is closed"} and "the mailbox is closed" in ended, set(ended)
""",
        box,
    )


def test_closed_mailbox(box):
    with rocktray.open_mailbox(box) as mails:
        assert next(mails).subject == "0"
    for _ in range(2):
        with pytest.raises(ValueError, match="the mailbox is closed"):
            next(mails)
    mails.close()
    file = io.BytesIO(box.read_bytes())
    rocktray.open_mailbox(file).close()
    assert not file.closed


def test_end_of_a_mailbox(box):
    mails = rocktray.open_mailbox(box)
    assert len(list(mails)) == 2000 and list(mails) == [] and mails._file.closed


@pytest.mark.filterwarnings("error")
def test_files_are_closed(box):
    before = os.listdir("/proc/self/fd")
    next(rocktray.open_mailbox(box))
    with pytest.raises(ValueError):
        rocktray.open_mailbox(TOP / "samples" / "attachment.eml")
    assert os.listdir("/proc/self/fd") == before


def test_shortened_mailbox(box):
    """The mails up to the new end are returned, and then an error."""
    succeeds(
        """
import mailbox, os, rocktray, sys
for size in (0, 1, 1_000_000, 2_000_000):
    data = open(sys.argv[1], "rb").read()
    box, found = rocktray.open_mailbox(sys.argv[1]), []
    found.append(next(box))
    os.truncate(sys.argv[1], size)
    for _ in range(2):
        try:
            found.extend(box)
        except mailbox.ExternalClashError as error:
            assert f"was shortened while it was read: from {len(data)} bytes to {size}" in str(error), error
        else:
            raise AssertionError("no error")
    assert [mail.subject for mail in found] == [str(number) for number in range(len(found))]
    assert all(data[slice(*mail.place)] == mail.raw for mail in found)
    last = found[-1].place[1]
    assert size - 5000 < last <= max(size, rocktray._mailbox.BLOCK), (size, last)
    open(sys.argv[1], "wb").write(data)
""",
        box,
    )


def mixed(count):
    """A mailbox of mails of many sizes, some of which have no headers that can be read, or are quoted."""
    kinds = (b"Subject: %d\n\nx\n", b" kept %d\n", b"Subject: %d\n\n>From x\n", b"Subject: %d\n\n" + b"x" * 9000, b"%d" + b"\nA: b" * 500)
    return b"".join(LINE + kinds[number % 5] % number + b"\n\n" for number in range(count)) + LINE + b"Subject: last\n\n" + b"x" * 900_000


def all_of(mails):
    """What a loop sees of mails, of which each is read."""
    return [(mail.error or (mail.subject, len(mail.headers), mail.text), mail.raw, mail.place) for mail in mails]


@pytest.mark.parametrize("format", _mailbox.FORMATS)
def test_mails_read_ahead(format, tmp_path):
    """Mails that are read together are those that are read one by one."""
    (tmp_path / "box").write_bytes(mixed(700))
    alone = []
    for mail in rocktray.open_mailbox(tmp_path / "box", format, limit=300):
        again = rocktray.Mail(mail.raw, mail.place, limit=300)
        alone.append(again)
    assert all_of(rocktray.open_mailbox(tmp_path / "box", format, limit=300)) == all_of(alone)
    assert len({mail.error for mail in alone}) == 2
    mails = rocktray.open_mailbox(tmp_path / "box", format)
    assert next(mails).subject == "0" and next(mails).text.startswith(" kept 1") and len(mails) == 699
    first = [next(mails).place for _ in range(200)]
    assert len(mails) == 499
    mails.rewind()
    assert [next(mails).place for _ in range(202)][2:] == first


def test_values_read_ahead(samples, hostile, tmp_path):
    """Values that are decoded ahead are those that are decoded when they are asked for."""
    raws = [raw.replace(b"\nFrom ", b"\n>From ") for raw in [*samples.values(), *hostile[:1000]] if not raw.startswith(b"From ")]
    (tmp_path / "box").write_bytes(b"".join(LINE + raw + b"\n\n" for raw in raws))

    def values(mail):
        if mail.error:
            return mail.error
        found = [mail.date, mail.date_error, mail.is_date_zone_known, mail.subject, mail.from_, mail.to, mail.cc]
        return [*found, mail.bcc, mail.sender, mail.reply_to, mail.message_id]

    ahead = [values(mail) for mail in rocktray.open_mailbox(tmp_path / "box")]
    assert ahead == [values(rocktray.Mail(mail.raw)) for mail in rocktray.open_mailbox(tmp_path / "box")]
    assert len(ahead) > 900


def test_reading_ahead_without_memory(box, monkeypatch):
    """After an error the mails are still there."""
    mails = rocktray.open_mailbox(box)
    found, fails = [next(mails).subject], iter([True, False, True])
    read_mails = _mailbox._engine.read_mails

    def failing(*arguments):
        if next(fails, False):
            raise MemoryError
        return read_mails(*arguments)

    monkeypatch.setattr(_mailbox._engine, "read_mails", failing, raising=False)
    for _ in range(2):
        with pytest.raises(MemoryError):
            for mail in mails:
                found.append(mail.subject)
    found += [mail.subject for mail in mails]
    assert found == [str(number) for number in range(2000)]


def test_mails_that_are_kept(box):
    """Mails share the bytes that were read, and have bytes of their own once others were read or the mailbox is gone."""
    mails, kept = rocktray.open_mailbox(box), []
    for number, mail in enumerate(mails):
        assert mail.subject == str(number)
        if number % 300 == 7:
            kept.append((number, mail))
    assert len(kept) == 7
    for number, mail in kept:
        assert mail.raw.startswith(b"Subject: %d\n" % number) and mail.headers[0].value == mail.subject
        assert box.read_bytes()[slice(*mail.place)] == mail.raw
    first = next(rocktray.open_mailbox(box))
    assert first.raw.startswith(b"Subject: 0\n") and first.raw == box.read_bytes()[slice(*first.place)]


def test_memory_of_mails_that_are_kept(tmp_path):
    """A few mails of a mailbox that are kept take no memory for the others."""
    (tmp_path / "box").write_bytes(numbered(40_000))
    succeeds(
        """
import gc, re, rocktray, sys
def resident():
    return int(open("/proc/self/statm").read().split()[1]) * 4096
kept = [mail for mail in rocktray.open_mailbox(sys.argv[1]) if mail.subject and int(mail.subject) < 600]
before = resident()
kept = [mail for mail in rocktray.open_mailbox(sys.argv[1]) if int(mail.subject) % 300 == 0]
gc.collect()
assert len(kept) == 134 and all(mail.raw for mail in kept)
assert resident() - before < 12 << 20, resident() - before
""",
        tmp_path / "box",
    )


def test_blocks_are_used_again(tmp_path):
    """A block is read into again when nothing refers to it, and does not change before."""
    (tmp_path / "file").write_bytes(b"".join(bytes([letter]) * 5000 for letter in b"abcdefgh"))
    store, others = _mailbox._engine.Store(), []
    with (tmp_path / "file").open("rb") as file:
        read = lambda number, size=5000: store.read(file.fileno(), size, number * 5000)[0]  # noqa: E731
        kept, number = read(0), id(read(1))
        others.append(bytes(5000))  # would take its memory, were it free
        block = read(2)
        assert id(block) == number and block == b"c" * 5000 and kept == b"a" * 5000
        view = memoryview(block)
        del block
        assert id(read(3)) != number and view.tobytes() == b"c" * 5000
        del view
        assert read(3) == b"d" * 5000 and kept == b"a" * 5000
        assert read(7, 9000) == b"h" * 5000 and read(8) == b"" == read(3, 0)
        blocks = [read(number % 8) for number in range(40)]
        assert blocks == [bytes([letter]) * 5000 for letter in b"abcdefgh"] * 5 and len(set(map(id, blocks))) == 40
        store.close()
        again = [read(number) for number in range(8)]
        assert again == blocks[:8] and not {*map(id, again)} & {*map(id, blocks)}
    for arguments in ((file_closed(tmp_path / "file"), 5000, 0), (-1, 5000, 0), (0, -1, 0), ("0", 1, 0), (0, 1)):
        with pytest.raises((OSError, OverflowError, TypeError)):
            store.read(*arguments)


def file_closed(path):
    """The number of a file that is closed."""
    with path.open("rb") as file:
        return file.fileno()


def test_threads_read_blocks(tmp_path):
    """Threads get blocks of their own."""
    (tmp_path / "file").write_bytes(random.Random(1).randbytes(100_000))
    succeeds(
        """
import random, rocktray, sys, threading
store, failed, data = rocktray._engine.Store(), [], open(sys.argv[1], "rb").read()
def read(chance):
    with open(sys.argv[1], "rb") as file:
        for _ in range(2000):
            size, at, kept = chance.choice((10_000, 20_000)), chance.randrange(80_000), []
            kept.append((store.read(file.fileno(), size, at)[0], at))
            kept = kept[-chance.randrange(1, 4):]
            assert all(block == data[at : at + len(block)] for block, at in kept)
threading.excepthook = failed.append
threads = [threading.Thread(target=read, args=(random.Random(number),)) for number in range(8)]
for thread in threads: thread.start()
for thread in threads: thread.join()
assert not failed, failed
""",
        tmp_path / "file",
    )


def test_memory_of_blocks(tmp_path):
    """At most 16 MB are kept, and nothing after the end."""
    with (tmp_path / "file").open("wb") as file:
        file.truncate(64 << 20)
    succeeds(
        """
import rocktray, sys, tracemalloc
tracemalloc.start()
store, kept = rocktray._engine.Store(), []
with open(sys.argv[1], "rb") as file:
    for size in [*range(1, 20), *range(1, 10)]:
        assert store.read(file.fileno(), size << 20, size)[0] == bytes(size << 20)
        kept.append(tracemalloc.get_traced_memory()[0] >> 20)
    assert 8 <= max(kept) <= 16 and kept[0] == 1, kept
    store.close()
    store.read(file.fileno(), 4 << 20, 0)
    assert tracemalloc.get_traced_memory()[0] < 1 << 20
""",
        tmp_path / "file",
    )


def test_separators_of_blocks(tmp_path):
    """The last separator whose line and one more byte were read, with LF and with CRLF."""
    store = _mailbox._engine.Store()
    small = numbered(3, 100)
    for data in (small, small.replace(b"\n", b"\r\n"), b"x\n\n" + LINE * 3, b"", b"\n", b"x" * 50, b"\n" * 50):
        for size in range(len(data) + 1):
            (tmp_path / "box").write_bytes(data[:size])
            with (tmp_path / "box").open("rb") as file:
                block, found = store.read(file.fileno(), size, 0)
            assert block == data[:size] and found == _mailbox._engine.last_separator(block)
            places = [at for at in range(3, size) if data[:at].replace(b"\r", b"").endswith(b"\n\n") and data[at:].startswith(b"From ")]
            whole = [at for at in places if b"\n" in data[at : size - 1]]
            assert found == max(whole, default=0), (data, size)


KEEPS = """
import random, rocktray, sys, threading
data, chance = open(sys.argv[1], "rb").read(), random.Random(int(sys.argv[2]))
uses = (
    lambda mail: None,
    lambda mail: mail.raw,
    lambda mail: (mail.subject, mail.date, mail.from_),
    lambda mail: mail.header("subject"),
    lambda mail: mail.headers,
    lambda mail: mail.error,
)
def read(box, kept):
    for mail in box:
        raw = data[slice(*mail.place)]
        if chance.random() < 0.3:
            chance.choice(uses)(mail)
        if chance.random() < 0.05:
            kept.append((mail, raw))
        if len(kept) > 5 and chance.random() < 0.05:
            mail, raw = kept.pop(chance.randrange(3))
            assert mail.raw == raw and raw.startswith(b"Subject: " + mail.subject.encode() + b"\\n")
            assert mail.headers[0].value == mail.subject
def run(threads, opened):
    kept = [[] for _ in opened]
    running = [threading.Thread(target=read, args=(box, some)) for box, some in zip(opened, kept) for _ in range(threads)]
    failed = []
    threading.excepthook = failed.append
    for thread in running: thread.start()
    for thread in running: thread.join()
    assert not failed, failed
    for some in kept:
        assert len(some) >= 3
        for mail, raw in some:
            assert mail.raw == raw and mail.headers[0].value == mail.subject == raw.split(b"\\n")[0][9:].decode()
run(1, [rocktray.open_mailbox(sys.argv[1])])
run(4, [rocktray.open_mailbox(sys.argv[1])])
run(1, [rocktray.open_mailbox(sys.argv[1]) for _ in range(4)])
"""


@pytest.mark.parametrize("size", [2000, 40_000])
def test_kept_mails_do_not_change(size, tmp_path):
    """Mails that are kept, whatever was used of them, in one thread and in four, while many blocks are read."""
    (tmp_path / "box").write_bytes(numbered(30_000_000 // size, size))
    succeeds(KEEPS, tmp_path / "box", size)


def test_exceptions_in_a_loop(tmp_path):
    """A loop that ends by an exception, whose traceback refers to a mail, goes on where it ended."""
    (tmp_path / "box").write_bytes(numbered(6000))
    mails, errors, numbers = rocktray.open_mailbox(tmp_path / "box"), [], []

    def loop():
        for mail in mails:
            numbers.append(mail.subject)
            if len(numbers) % 500 == 0:
                raise KeyError(mail)

    for _ in range(13):
        try:
            loop()
        except KeyError as error:
            errors.append(error)
    assert numbers == [str(number) for number in range(6000)]
    assert [error.args[0].subject for error in errors] == numbers[499::500]
    assert all(error.args[0].raw.startswith(b"Subject: %s\n" % error.args[0].subject.encode()) for error in errors)


def test_values_of_mails_that_are_detached(tmp_path):
    """To make a value may run other code, which detaches the mail and reads on."""
    values = b"From: Ana <a%d@b>\nFrom: Bob <b@b>\nDate: Fri, 21 Nov 1997 09:55:06 -0600\nSubject: %d\n\n%s\n\n"
    (tmp_path / "box").write_bytes(b"".join(LINE + values % (number, number, b"x" * 2000) for number in range(4000)))
    succeeds(
        """
import gc, rocktray, sys
box = rocktray.open_mailbox(sys.argv[1])
class Garbage:
    def __init__(self):
        self.self = self
    def __del__(self):
        box._detach(0)
        box._read_ahead()
gc.set_threshold(1)
for number, mail in enumerate(box):
    Garbage()
    found = mail.from_, mail.date, mail.subject
    assert [one.address for one in found[0]] == [f"a{number}@b", "b@b"] and found[2] == str(number)
    again = rocktray.parse(mail.raw)
    assert found == (again.from_, again.date, again.subject)
assert number == 3999
""",
        tmp_path / "box",
    )


def test_page_faults_of_a_mailbox(tmp_path):
    """To read on takes no new memory."""
    (tmp_path / "box").write_bytes(numbered(40_000))
    succeeds(
        """
import resource, rocktray, sys
def faults():
    return resource.getrusage(resource.RUSAGE_SELF).ru_minflt
box = rocktray.open_mailbox(sys.argv[1])
for mail, _ in zip(box, range(10_000)):
    mail.subject, mail.date, mail.from_
before = faults()
for mail in box:
    mail.subject, mail.date, mail.from_
assert faults() - before < 1000, faults() - before
""",
        tmp_path / "box",
    )


def test_threads_read_ahead(box):
    """Each mail goes to one of the threads, and is read; beside them the mailbox is closed or begins again."""
    succeeds(
        """
import rocktray, sys, threading, time
def read(box, found):
    try:
        found.extend(mail.subject for mail in box)
    except ValueError as error:
        assert str(error) == "the mailbox is closed"
for number in range(60):
    box, found = rocktray.open_mailbox(sys.argv[1]), []
    threads = [threading.Thread(target=read, args=(box, found)) for _ in range(4)]
    for thread in threads: thread.start()
    if number % 3:
        time.sleep(number * 1e-4)
        (box.close if number % 3 == 1 else box.rewind)()
    for thread in threads: thread.join()
    if number % 3 < 2:
        assert len(set(found)) == len(found) and (number % 3 or len(found) == 2000), len(found)
    else:
        assert set(found) == set(map(str, range(2000)))
""",
        box,
    )


def test_equal_mails(box):
    """Mails are equal if their bytes are, wherever they come from, so that a set has each once."""
    first = next(rocktray.open_mailbox(box))
    again = rocktray.parse(first.raw)
    assert first == again and first.place != again.place and len({first, again, rocktray.parse(b"")}) == 2


def test_growing_mailbox(box):
    """Mails that come meanwhile are not read."""
    mails = rocktray.open_mailbox(box)
    with box.open("ab") as file:
        file.write(numbered(10))
    assert len(list(mails)) == 2000


def test_memory_of_a_mailbox(tmp_path):
    """A mailbox takes no memory but that of its largest mail."""
    (tmp_path / "box").write_bytes(numbered(40_000))
    succeeds(
        """
import re, rocktray, sys
def peak():
    return int(re.search("VmHWM:\\s*(\\d+) kB", open("/proc/self/status").read()).group(1)) * 1024
next(rocktray.open_mailbox(sys.argv[1]))
before = peak()
assert sum(1 for mail in rocktray.open_mailbox(sys.argv[1])) == 40_000
assert peak() - before < 4 << 20, peak() - before
""",
        tmp_path / "box",
    )


@pytest.mark.parametrize("format", _mailbox.FORMATS)
def test_large_mail(format, tmp_path, monkeypatch):
    """Reading goes on by twice as many bytes, so a mail of 16 MB is searched a few times."""
    calls = []
    next_mail = _library._next_mail
    monkeypatch.setattr(_library, "_next_mail", lambda *arguments: calls.append(1) or next_mail(*arguments))
    (tmp_path / "box").write_bytes(numbered(1) + numbered(1, 16 << 20) + numbered(1))
    assert [len(mail.raw) for mail in rocktray.open_mailbox(tmp_path / "box", format)] == [2013, (16 << 20) + 13, 2013]
    assert len(calls) < 25


PIECES = (
    [b"\n" + LINE] * 6
    + [LINE, LINE[:-1] + b"\r\n", LINE[:-1], b"From the start I knew\n", b">From x\n", b"From b Fri Jul  8 12:08 2011 " + b"z" * 970 + b"\n"]
    + [b"\n", b"\r\n", b"\n\n", b"\r", b" ", b"Subject: Hi\n", b"x" * 300 + b"\n", b"y"]
    + [b"Content-Length: %d\n" % number for number in (0, 1, 35, 300, 1500, 10**9 - 1)]
    + [b"content-length:\t 7 \r\n", b"X-Content-Length: 99\n", b"Content-Length: x\n"]
)


@pytest.mark.parametrize("format", _mailbox.FORMATS)
@pytest.mark.parametrize("block, ahead", [(1, 1), (7, 1 << 19), (100, 50), (1500, 1 << 19), (1500, 200)])
def test_blocks(format, block, ahead, tmp_path, monkeypatch):
    """Mailboxes read in small blocks, a few bytes ahead, have the mails that they have in one."""
    chance = random.Random(f"{format} {block} {ahead}")
    found = 0
    for _ in range(300):
        data = LINE + b"".join(chance.choices(PIECES, k=chance.randrange(60)))
        data = b"junk\n\n" + data if chance.random() < 0.2 else data
        (tmp_path / "box").write_bytes(data)
        whole = list(rocktray.open_mailbox(tmp_path / "box", format))
        with monkeypatch.context() as patch:
            patch.setattr(_mailbox, "BLOCK", block)
            patch.setattr(_mailbox, "AHEAD_BYTES", ahead)
            for opened in (tmp_path / "box", io.BytesIO(data)):
                mails = list(rocktray.open_mailbox(opened, format))
                assert mails == whole and [mail.place for mail in mails] == [mail.place for mail in whole]
        found += len(whole)
    assert found > 1000


@pytest.mark.parametrize("chunk", [1, 1000, 100_000])
def test_pipe(chunk, box):
    """A pipe, by its path and as a file."""
    data = box.read_bytes()[: max(5000, chunk * 2000)]
    wanted = list(rocktray.open_mailbox(io.BytesIO(data)))
    assert len(wanted) >= 2

    def write(end):
        with os.fdopen(end, "wb", buffering=0) as file:
            for at in range(0, len(data), chunk):
                file.write(data[at : at + chunk])

    for opened in (lambda end: rocktray.open_mailbox(f"/dev/fd/{end}"), lambda end: rocktray.open_mailbox(os.fdopen(end, "rb"))):
        end, other = os.pipe()
        writer = threading.Thread(target=write, args=(other,))
        writer.start()
        assert list(opened(end)) == wanted
        writer.join()


def test_standard_input(box):
    script = "import rocktray; assert sum(1 for mail in rocktray.open_mailbox('/dev/stdin')) == 2000"
    with box.open("rb") as file:
        subprocess.run([sys.executable, "-c", script], stdin=file, check=True)
    subprocess.run([sys.executable, "-c", script], input=box.read_bytes(), check=True)


def test_pipe_mails_come_at_once():
    """A mail is returned as soon as what was written shows its end."""
    end, other = os.pipe()
    with os.fdopen(end, "rb") as file, os.fdopen(other, "wb", buffering=0) as writer:
        writer.write(numbered(3))
        mails = rocktray.open_mailbox(file)
        assert [next(mails).subject, next(mails).subject] == ["0", "1"]


class OnlyRead:
    """A file object that has nothing but read."""

    def __init__(self, data):
        self._file = io.BytesIO(data)

    def read(self, size):
        return self._file.read(min(size, 10))


def test_file_objects(box, tmp_path):
    data = box.read_bytes()
    wanted = list(rocktray.open_mailbox(box))
    (tmp_path / "box.gz").write_bytes(gzip.compress(data))
    (tmp_path / "box.xz").write_bytes(lzma.compress(data))
    (tmp_path / "box.bz2").write_bytes(bz2.compress(data))
    with zipfile.ZipFile(tmp_path / "box.zip", "w", zipfile.ZIP_DEFLATED) as file:
        file.write(box, "box")
    files = [box.open("rb"), box.open("rb", buffering=0), gzip.open(tmp_path / "box.gz"), lzma.open(tmp_path / "box.xz")]
    files += [bz2.open(tmp_path / "box.bz2"), zipfile.ZipFile(tmp_path / "box.zip").open("box"), io.BytesIO(data), OnlyRead(data)]
    for file in files:
        assert list(rocktray.open_mailbox(file)) == wanted
    for file in files[:-1]:
        assert not file.closed
        file.close()


def test_position_of_a_file_object(box):
    with box.open("rb") as file:
        file.seek(2 * len(numbered(1)) - len(b"x" * 1000))
        mails = list(rocktray.open_mailbox(file))
    assert len(mails) == 1998 and mails[0].subject == "2"


def test_text_file(box):
    with box.open() as file, pytest.raises(TypeError, match="str, not bytes: open the file in binary mode"):
        rocktray.open_mailbox(file)
    end, other = os.pipe()
    os.set_blocking(end, False)
    with os.fdopen(end, "rb", buffering=0) as file, pytest.raises(TypeError, match="NoneType"):
        rocktray.open_mailbox(file)
    os.close(other)


ZIPPED = io.BytesIO()
with zipfile.ZipFile(ZIPPED, "w") as _file:
    _file.writestr("box", numbered(3))


@pytest.mark.parametrize(
    "kind, data",
    [
        ("gzip", gzip.compress(numbered(3))),
        ("xz", lzma.compress(numbered(3))),
        ("bzip2", bz2.compress(numbered(3))),
        ("zip", ZIPPED.getvalue()),
        ("zstd", b"\x28\xb5\x2f\xfd\x24\x05\x29\x00\x00hallo"),
    ],
    ids=("gzip", "xz", "bzip2", "zip", "zstd"),
)
def test_compressed_mailbox(kind, data, tmp_path):
    (tmp_path / "box").write_bytes(data)
    with pytest.raises(ValueError, match=f"box' is compressed by {kind}: unpack it, or use open_mailbox"):
        rocktray.open_mailbox(tmp_path / "box")
    with pytest.raises(ValueError, match=f"compressed by {kind}"):
        rocktray.open_mailbox(OnlyRead(data))


def test_single_mail(samples, tmp_path):
    for raw in samples.values():
        (tmp_path / "mail.eml").write_bytes(raw)
        with pytest.raises(ValueError, match=r"mail.eml' is a single mail and no mailbox: use parse.*read_bytes"):
            rocktray.open_mailbox(tmp_path / "mail.eml")
    with pytest.raises(ValueError, match="the input is a single mail"):
        rocktray.open_mailbox(io.BytesIO(b"Subject: 1\n\nFrom the start I knew\n"))
    with pytest.raises(ValueError, match="single mail"):
        rocktray.open_mailbox(io.BytesIO(b"Subject: 1\n\n" + b"x\n" * 100_000))


def test_no_mailbox():
    for data in (b"\x89PNG\r\n\x1a\n", b"text\n", b"// <!-- <mdb:mork:z -->\n" * 10_000):
        with pytest.raises(ValueError, match="the input is no mailbox: it has no line that begins with 'From '"):
            rocktray.open_mailbox(io.BytesIO(data))
    for data in (b"", b"\n\n", b" \r\n"):
        assert list(rocktray.open_mailbox(io.BytesIO(data))) == []
    for data in (b"junk\n\n", b"Subject: 1\n\n", b"junk\n" * 20_000 + b"\n"):
        assert [mail.subject for mail in rocktray.open_mailbox(io.BytesIO(data + numbered(2)))] == ["0", "1"]


def test_signal_handler_closes():
    """A handler that closes the mailbox while a mail is read does not wait for it."""
    succeeds(
        """
import os, rocktray, signal, sys
end, other = os.pipe()
os.write(other, b"From a Fri Jul  8 12:08:34 2011\\nSubject: 1\\n\\n")
box = rocktray.open_mailbox(f"/dev/fd/{end}")
def close(*_):
    box.close()
    os.close(other)
signal.signal(signal.SIGALRM, close)
signal.alarm(1)
try:
    next(box)
except (ValueError, OSError):
    sys.exit(0)
sys.exit("no error")
"""
    )


def test_forks_do_not_share_a_position(box):
    succeeds(
        """
import os, rocktray, sys
box = rocktray.open_mailbox(sys.argv[1])
next(box)
child = os.fork()
count = sum(1 for mail in box)
if child == 0:
    os._exit(count != 1999)
assert os.waitpid(child, 0)[1] == 0 and count == 1999
""",
        box,
    )
