"""Bytes-like objects: none is copied, and bytes that change or go away do no harm."""

import array
import mmap
import os
import pickle
import subprocess
import sys
import threading
from datetime import timedelta, timezone

import pytest

import rocktray
from rocktray import _engine, _values

RAW = (
    b"Subject: Hi\nContent-Type: multipart/mixed; boundary=b\n\n--b\n\ntext\n--b\nContent-Disposition: attachment; filename=a\n"
    b"Content-Transfer-Encoding: base64\n\nJVBERg==\n--b\nContent-Type: message/rfc822\n\nSubject: in\n\n--b--\n"
)

BOX = b"From a Fri Jul  8 12:08:34 2011\nSubject: 1\n\n" * 3

# the start of a script: `data` is the file that its argument names, in an mmap, and 100 MB are left to allocate
IN_100_MB = """
import mmap, re, resource, rocktray, sys
def own():
    return sum(int(size) for size in re.findall(r"(?:RssAnon|VmSwap):\\s*(\\d+) kB", open("/proc/self/status").read())) * 1024
with open(sys.argv[1], "rb") as file:
    data = mmap.mmap(file.fileno(), 0, access=mmap.ACCESS_READ)
rocktray.parse(b"")
resource.setrlimit(resource.RLIMIT_DATA, (own() + (100 << 20),) * 2)
"""


def succeeds(script, *arguments):
    """Runs a script in a process of its own."""
    ended = subprocess.run([sys.executable, "-c", script, *map(str, arguments)], capture_output=True, text=True, check=False)
    assert ended.returncode == 0, (ended.returncode, ended.stderr[-3000:])


@pytest.fixture
def mapped(tmp_path):
    """A function that maps a file with these bytes."""

    def map_of(data, access=mmap.ACCESS_READ):
        path = tmp_path / str(len(os.listdir(tmp_path)))
        path.write_bytes(data)
        with open(path, "r+b") as file:
            return mmap.mmap(file.fileno(), 0, access=access)

    return map_of


def all_of(mail):
    files = [(file.path, file.file_name, file.content, file.raw, file.children) for file in mail.files()]
    return mail.subject, mail["subject"], mail.text, mail.raw, files, [header.raw for header in mail.headers], mail.json


def test_kinds_of_buffers(mapped):
    wanted = all_of(rocktray.parse(RAW))
    padded = b"xx" + RAW + b"yy"
    kinds = [bytearray(RAW), memoryview(RAW), memoryview(bytearray(RAW)), memoryview(padded)[2:-2], memoryview(bytearray(RAW)).toreadonly()]
    kinds += [array.array("B", RAW), mapped(RAW), mapped(RAW, mmap.ACCESS_WRITE), memoryview(mapped(padded))[2:-2]]
    kinds += [memoryview(b"".join(bytes((byte, 0)) for byte in RAW))[::2], pickle.PickleBuffer(RAW)]
    for kind in kinds:
        for large in (False, True):
            mail = rocktray.parse(kind)
            assert all_of(mail) == wanted and type(mail.raw) is bytes
            assert pickle.loads(pickle.dumps(mail)) == mail == rocktray.parse(RAW)


def test_large_buffers_are_read_without_the_lock(mapped):
    """The results are the same where the lock is free."""
    raw = RAW.replace(b"text\n", b"text\n" * 20_000)
    wanted = all_of(rocktray.parse(raw))
    for kind in (raw, bytearray(raw), memoryview(raw), memoryview(bytearray(raw)).toreadonly(), mapped(raw), memoryview(mapped(raw))):
        assert all_of(rocktray.parse(kind)) == wanted


def test_no_copy(tmp_path):
    """200 MB in an mmap: neither the mail nor what is asked of it takes memory of that size."""
    (tmp_path / "mail").write_bytes(RAW.replace(b"text\n", b"text of a line of a letter\n" * 7_500_000))
    succeeds(
        IN_100_MB
        + """
for kind in (data, memoryview(data)):
    mail = rocktray.parse(kind)
    assert mail.subject == mail["Subject"] == "Hi" and mail.date is None and mail.recipients == []
    assert [it.raw for it in mail.headers][0] == b"Hi"
    assert [part.size > 100_000_000 for part in mail.walk()] == [False, True, False, False]
    assert [file.extracted_content() for file in mail.files()] == [b"%PDF", b"Subject: in\\n"]
    assert len(mail.files()) == 2 and mail.files()[1].children[0]._mail is mail
assert own() < 60 << 20, own()
""",
        tmp_path / "mail",
    )


@pytest.mark.parametrize("mail", ["parts", "headers", "headers of a part"])
def test_too_many(tmp_path, mail):
    """47 MB of the least parts or headers are refused, and take no memory for more of them than the limit."""
    front = b"" if mail == "headers" else b"Content-Type: multipart/mixed; boundary=b\n\n--b\n"
    (tmp_path / "mail").write_bytes(front + (b"\n--b\n" * 9_400_000 if mail == "parts" else b"a\n" * 23_500_000))
    succeeds(
        IN_100_MB
        + """
try:
    rocktray.parse(data, limit=10_000)
except rocktray.TooMany as error:
    assert error.text == "Too many parts and headers"
else:
    raise AssertionError("not refused")
assert own() < 60 << 20, own()
""",
        tmp_path / "mail",
    )


def test_bytes_that_become_fewer():
    data = bytearray(RAW)
    mail = rocktray.parse(data)
    del data[100:]
    for call in (lambda: mail.subject, lambda: mail.headers, lambda: mail.from_, lambda: next(mail.walk()).content, lambda: mail["x"]):
        with pytest.raises(BufferError, match="became fewer"):
            call()
    data += b"x" * 10_000
    assert isinstance(mail.subject, str) or mail.subject is None


def test_counts_of_mails():
    """A count of mails whose records have more bytes than a size can say finds what a small one finds."""
    wanted = _engine.mails(BOX, 0, len(BOX), False, 10)
    assert len(wanted) == 3 and _engine.mails(BOX, 0, len(BOX), False, 0) == []
    for count in (2**64 // 24 + 1, 2**64 // 12 + 2, 2**61, 2**64 - 1):
        assert _engine.mails(BOX, 0, len(BOX), False, count) == wanted
    assert len(_engine.mails(BOX * 4000, 0, len(BOX) * 4000, False, 2**64 - 1)) == 10_000


def test_offsets_of_mails():
    """Offsets that no data has are a ValueError, and a mail that would begin at the end does not exist."""
    assert _engine.mails(BOX, len(BOX), len(BOX), False, 3) == []
    with pytest.raises(ValueError, match="begins after the data"):
        _engine.mails(BOX, len(BOX) + 1, len(BOX), False, 3)
    for found in ((BOX, -1, 0, len(BOX)), (BOX, 0, -1, len(BOX)), (BOX, 0, 0, -1)):
        with pytest.raises(ValueError, match="negative"):
            _engine.read_mails(rocktray.Mail, found, 10, _engine.Use(), False, 3, 10**6, _engine.Store())
    found = (BOX, 0, len(BOX) + 1, len(BOX))
    assert _engine.read_mails(rocktray.Mail, found, 10, _engine.Use(), False, 3, 10**6, _engine.Store())[0] == []


class OtherBytes(bytes):
    """Bytes whose buffer is another one, from Python 3.12 on."""

    def __buffer__(self, flags):
        return memoryview(bytearray(BOX * 2))


def test_types_made_of_bytes(tmp_path):
    """The offsets of one buffer are not used in another: such bytes are copied, read by their buffer, or refused."""
    other, wanted = OtherBytes(BOX), memoryview(OtherBytes(BOX)).tobytes()
    with pytest.raises(TypeError, match="bytes are needed"):
        _engine.read_mails(rocktray.Mail, (other, 0, 0, len(BOX)), 10, _engine.Use(), False, 3, 10**6, _engine.Store())
    with pytest.raises(TypeError, match="bytes are needed"):
        _engine.last_separator(other)
    assert _engine.mails(other, 0, 10**6, False, 9) == _engine.mails(wanted, 0, 10**6, False, 9)
    with open(tmp_path / "box", "w+b") as file:
        file.write(BOX)
        file.seek(0)

        class Others:
            """A file object that returns such bytes."""

            def read(self, size):
                return OtherBytes(file.read(size))

        assert [mail.subject for mail in rocktray.open_mailbox(Others())] == ["1"] * wanted.count(b"Subject")


def test_closed_map(mapped):
    data = mapped(RAW)
    mail = rocktray.parse(data)
    data.close()
    with pytest.raises(ValueError):
        mail.subject
    with pytest.raises(ValueError):
        rocktray.parse(data)


def test_buffers_are_not_kept():
    """A bytearray may grow between calls."""
    data = bytearray(RAW)
    mail = rocktray.parse(data)
    data += b"more"
    assert mail.subject == "Hi"


def test_changes_beside_threads():
    """Bytes that another thread changes while they are read: any result, but no crash."""
    succeeds(
        """
import random, rocktray, sys, threading, time
raw = open(sys.argv[1], "rb").read() * 40
data, ended = bytearray(b"Subject: x\\n" + raw), []
def change():
    chance = random.Random(1)
    while not ended:
        at = chance.randrange(len(data) - 100)
        data[at:at + 50] = bytes(chance.randrange(256) for _ in range(50))
thread = threading.Thread(target=change, daemon=True)
thread.start()
end = time.monotonic() + 3
while time.monotonic() < end:
    try:
        mail = rocktray.parse(data)
        mail.subject, mail.text, [part.content for part in mail.walk()], mail.headers, mail.files()
    except (rocktray.Refused, IndexError):
        pass
ended.append(1)
thread.join()
""",
        os.path.join(os.path.dirname(__file__), "..", "..", "samples", "attachment.eml"),
    )


def test_the_lock_is_free():
    """Another thread runs while one reads a mail of 50 MB."""
    raw = b"Content-Type: multipart/mixed; boundary=b\n\n" + b"-x\n" * 17_000_000
    steps, reading = [], threading.Event()

    def count():
        while not reading.wait(0.001):
            steps.append(1)

    thread = threading.Thread(target=count)
    thread.start()
    before = len(steps)
    _engine.read(raw, 1000)
    while_reading = len(steps) - before
    reading.set()
    thread.join()
    assert while_reading > 10


def test_threads_share_a_mail(samples, hostile):
    """What one mail has is the same for all threads that ask for it at once."""
    for raw in [*samples.values(), *hostile[:200]]:
        mail = rocktray.Mail(raw)
        if mail.error:
            continue
        wanted, shared, found = all_of_parts(rocktray.parse(raw)), rocktray.parse(raw), []
        threads = [threading.Thread(target=lambda: found.append(all_of_parts(shared))) for _ in range(4)]
        for thread in threads:
            thread.start()
        for thread in threads:
            thread.join()
        assert found == [wanted] * 4


def test_found_meanwhile():
    """A value that cannot be found, but was found by another call meanwhile, is returned without the error."""
    zone, calls = timezone(timedelta(minutes=67)), []

    def zone_of(offset):
        calls.append(offset)
        if len(calls) == 1:
            assert mail.date.utcoffset() == timedelta(minutes=67)
            raise MemoryError
        return zone

    mail = rocktray.parse(b"Date: 1 Jan 2000 00:00:00 +0107\n\n")
    _engine.values(rocktray.Address, zone_of)
    try:
        assert mail.date is mail.date and mail.date.tzinfo is zone and calls == [67 * 60] * 2
    finally:
        _engine.values(rocktray.Address, _values.zone_of)


def all_of_parts(mail):
    parts = [(it.path, it.content_type, it.file_name, it.text, it.is_damaged, it.extracted_content(), it.parent is None) for it in mail.files()]
    return mail.subject, mail.from_, mail.date, mail.text, parts, [(it.name, it.value, it.raw) for it in mail.headers]


def resident():
    with open("/proc/self/statm") as file:
        return int(file.read().split()[1]) * 4096


def test_memory_of_all_members(samples, hostile):
    """Neither results nor errors leak memory."""
    mails = [*samples.values(), *hostile[:300], bytearray(samples["attachment"])]

    def run(count):
        for k in range(count):
            try:
                mail = rocktray.parse(mails[k % len(mails)], limit=50)
                all_of_parts(mail)
                mail.to, mail.html, mail.recipients, mail.bounced_id, mail.get_all("received"), mail["\u20ac"]
                mail._reading.raw_value(0, 10**6)
            except (rocktray.Refused, IndexError):
                pass

    run(3000)
    before = resident()
    run(30_000)
    assert resident() - before < 2 << 20


def test_refused_memory():
    """Each allocation of Python's refused in turn: MemoryError, and nothing is lost or spoiled."""
    pytest.importorskip("_testcapi")
    succeeds(
        """
import _testcapi, rocktray, sys
raw = open(sys.argv[1], "rb").read()
large = b"A: b\\n" * 300 + raw
def work():
    engine, found = rocktray._engine, []
    for data in (raw, large):
        reading = engine.read(data, 10**6)
        found += [reading.part(0), reading.value(0, b"subject", 0), reading.values(0, b"from"), len(reading)]
        found += [(it.name, it.value, it.raw) for it in reading.headers(0, rocktray.Header)]
        found += [reading.raw_value(0, 0), reading.addresses(0, b"from")]
        for part in range(len(reading)):
            found += [reading.type(part), reading.disposition(part), reading.file_name(part)]
            found += [reading.body(part, 0), reading.body(part, reading.body_size(part)[0]), reading.text(part)]
        found += [engine.json(data), engine.recipients(data), engine.findings(data), engine.bounced_id(data)]
        found += [engine.unquoted(data)]
        found += [engine.header(data, b"from", 0), engine.raw_header(data, b"from", 0), engine.header(data, b"x-none", 0)]
    found += [engine.ids("<a@b>", True), engine.date("1 Jan 2000 00:00"), engine.reason(17), engine.version(), engine.safe_name("a/b")]
    use, store, box = engine.Use(), engine.Store(), b"".join(b"From a Fri Jul  8 12:08:34 2011\\n" + mail + b"\\n" for mail in (raw, large, b"A: b\\n\\n"))
    for _ in range(2):  # the second time the values are decoded ahead
        mails, batch, end = engine.read_mails(rocktray.Mail, (box, 7, 0, len(box)), 10**6, use, False, 9, 10**6, store)
        for mail in mails:
            found += [mail.place, mail.subject, mail.from_, mail.to, mail.date, mail.date_error, mail.error, mail.raw, end]
    mails, batch, end = engine.read_mails(rocktray.Mail, (box, 0, 0, len(box)), 1, use, False, 2, 10**6, store)
    batch.detach()
    found += [(mail.error, mail.raw) for mail in mails]
    with open(sys.argv[1], "rb") as file:
        found += [store.read(file.fileno(), size, 0) for size in (100, 100, 10**6)]
    found += [rocktray.parse(data).date, rocktray.parse(data).cc]
    return found + engine.mails(b"From a Fri Jul  8 12:08:34 2011\\nSubject: 1\\n\\n" * 3, 0, 999, False, 10)
wanted, refused = work(), 0
for start in range(1, 5000):
    _testcapi.set_nomemory(start, start + 1)
    try:
        assert work() == wanted
    except MemoryError:
        refused += 1
    else:
        break
    finally:
        _testcapi.remove_mem_hooks()
assert refused > 50 and start < 4999 and work() == wanted, (refused, start)
""",
        os.path.join(os.path.dirname(__file__), "..", "..", "samples", "attachment.eml"),
    )
