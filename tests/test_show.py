"""mail_show when standard input and output move few bytes at a call, are interrupted, and fail.

A library that is loaded before the program, streams.c, does this to its calls of read and write, and counts them. Each
message is shown at each step and with interrupts; of a refused one nothing is written. Then each read fails in turn,
and each write fails in turn or takes no byte: after a failed read nothing is written, and after such a write no more;
the program says what failed, in the system's words, and ends with exit status 1.
"""

import errno
import os
import subprocess

import pytest

from support import program

LEADING_SPACE = "Header cannot start with a space; it is likely an overhanging line from a previous header"
LONE_CR = "Headers were followed by an unexpected lone CR character!"
TIMED_OUT = f"Connection timed out (os error {errno.ETIMEDOUT})"
NOT_READY = f"Resource temporarily unavailable (os error {errno.EAGAIN})"
NONE_TAKEN = "failed to write whole buffer"
# a step that no message reaches
ALL = 1 << 40
# how many writes are interrupted at most: at one byte a write, the runtime of the kit gives up after more
INTERRUPTS = 64
# each message, and the text that shows it
SHOWN = [
    (b"A: 1\r\nB:2\r\n\r\nxyz", "part 0: text/plain, 2 headers, 3 body bytes\n  A: 1\n  B: 2\n"),
    (b"", "part 0: text/plain, 0 headers, 0 body bytes\n"),
    (b"A: \xe9", "part 0: text/plain, 1 headers, 0 body bytes\n  A: \xe9\n"),
    (b"Subject: Test\n\nHi", "part 0: text/plain, 1 headers, 2 body bytes\n  Subject: Test\n"),
    (b"\xe9: 1", "part 0: text/plain, 1 headers, 0 body bytes\n  \xe9: 1\n"),
    (b"\n\nbody", "part 0: text/plain, 0 headers, 5 body bytes\n"),
    (b"A : b", "part 0: text/plain, 1 headers, 0 body bytes\n  A : b\n"),
    (b":x\nKey", "part 0: text/plain, 2 headers, 0 body bytes\n  : x\n  Key: \n"),
    (
        b"Subject: =?utf-8?Q?a?=\n =?utf-8?Q?b?=\n\nHi",
        "part 0: text/plain, 1 headers, 2 body bytes\n  Subject: ab\n",
    ),
    (b"\xc3\xa9: \xc3\xa9\n", "part 0: text/plain, 1 headers, 0 body bytes\n  \xc3\xa9: \xe9\n"),
    (b"A: x\r\n\ty =?latin1?q?=E9?=", "part 0: text/plain, 1 headers, 0 body bytes\n  A: x y \xe9\n"),
    (b"\r\n\xff\0", "part 0: text/plain, 0 headers, 2 body bytes\n"),
    (
        b"Content-Type: multipart/mixed; boundary=b\n\npre\n--b\n\none\n--bX\n\ntwo\n--b--\nrest",
        "part 0: multipart/mixed, 1 headers, 3 body bytes\n  Content-Type: multipart/mixed; boundary=b\n"
        "part 1: text/plain, 0 headers, 3 body bytes\npart 2: text/plain, 0 headers, 3 body bytes\n",
    ),
    (
        b"Content-Type: multipart/mixed; boundary=o\n\n--o\nContent-Type: multipart/mixed; boundary=i\n\n"
        b"--i\n\nx\n--i--\n--o\n\nyy\n--o--\n",
        "part 0: multipart/mixed, 1 headers, 0 body bytes\n  Content-Type: multipart/mixed; boundary=o\n"
        "part 1: multipart/mixed, 1 headers, 0 body bytes\n  Content-Type: multipart/mixed; boundary=i\n"
        "part 2: text/plain, 0 headers, 1 body bytes\npart 3: text/plain, 0 headers, 2 body bytes\n",
    ),
]
LONG = (
    b"A: %b\n\n%b" % (b"x" * 200_000, b"x" * 200_000),
    f"part 0: text/plain, 1 headers, 200000 body bytes\n  A: {'x' * 200_000}\n",
)
# each message, and why it is refused
REFUSED = [
    (b"A: 1\n\rB", LONE_CR),
    (b"\r", LONE_CR),
    (b" x", LEADING_SPACE),
    (b"abc\n def", LEADING_SPACE),
    (b"A: 1\nB: 2\r\n\rbody", LONE_CR),
    (b"Content-Type: multipart/mixed; boundary=b\n\n--b\nA: 1\n\rB\n--b--\n", LONE_CR),
    (b"Content-Type: multipart/mixed; boundary=b\n\n--b\n x\n--b\n\rz\n--b--\n", LEADING_SPACE),
]


def moves(size, step):
    """The number of calls that move `count` bytes."""
    return -(-size // step)


def shown(message, text, reads, writes):
    """What a run gives that shows the message."""
    return 0, text.encode(), "", [reads, len(message), writes]


@pytest.fixture
def show(streams, tmp_path):
    """Runs mail_show on a message; returns its exit status, its output, its standard error, and the numbers of reads,
    of bytes read and of writes."""
    message_file, report = tmp_path / "message", tmp_path / "report"

    def run(message, **settings):
        message_file.write_bytes(message)
        report.write_bytes(b"")
        variables = {f"STREAM_{name.upper()}": str(value) for name, value in settings.items()}
        variables.update(STREAM_REPORT=str(report), LD_PRELOAD=str(streams))
        with open(message_file, "rb") as file:
            ended = subprocess.run(
                [program("mail_show")], stdin=file, capture_output=True, env={**os.environ, **variables}, timeout=60
            )
        return ended.returncode, ended.stdout, ended.stderr.decode(), [int(it) for it in report.read_text().split()]

    return run


def test_steps(show):
    """Few bytes at a call, also where calls are interrupted; and more than one read can give."""
    for message, text in SHOWN:
        for step in (1, 2, 7, ALL):
            reads, writes = moves(len(message), step) + 1, moves(len(text.encode()), step)
            for most in (0, INTERRUPTS):
                wanted = shown(message, text, reads * 3 if most else reads, writes + min(writes * 2, most))
                assert show(message, step=step, interrupts=most) == wanted, f"{message}, step {step}, {most} interrupts"
    message, text = LONG
    for step in (1000, ALL):
        *found, counts = show(message, step=step)
        assert (*found, counts[1:2]) == (0, text.encode(), "", [len(message)]), f"the long message, step {step}"


def test_refused(show):
    """Of a refused message nothing is written."""
    for message, text in REFUSED:
        wanted = 1, b"", f"mail_show: {text}\n", [len(message) * 3 + 3, len(message), 0]
        assert show(message, step=1, interrupts=INTERRUPTS) == wanted, f"{message}"


def test_reads(show):
    """Each read failing: of a message that is shown, of one that is refused, and since it would have to wait."""
    rows = [(message, range(1, len(message) + 2), errno.ETIMEDOUT, TIMED_OUT) for message, _ in SHOWN]
    rows.append((b" x", range(1, 4), errno.ETIMEDOUT, TIMED_OUT))
    rows.append((SHOWN[0][0], range(1, 4), errno.EAGAIN, NOT_READY))
    for message, places, error, why in rows:
        for place in places:
            wanted = 1, b"", f"mail_show: input failed: {why}\n", [place, place - 1, 0]
            assert show(message, step=1, read=place, error=error) == wanted, f"{message}, read {place}, {why}"
    for message, text in SHOWN:
        reads = len(message) + 1
        found = show(message, step=1, read=reads + 1, error=errno.ETIMEDOUT)
        assert found == shown(message, text, reads, len(text.encode())), f"{message}, all reads before the one that fails"


def test_writes(show):
    """Each write failing or taking nothing."""
    step = 7
    for message, text in SHOWN:
        reads, writes = moves(len(message), step) + 1, moves(len(text.encode()), step)
        for place in range(1, writes + 1):
            for error, why in ((errno.ETIMEDOUT, TIMED_OUT), (0, NONE_TAKEN)):
                front = text.encode()[: step * (place - 1)]
                wanted = 1, front, f"mail_show: output failed: {why}\n", [reads, len(message), place]
                assert show(message, step=step, write=place, error=error) == wanted, f"{message}, write {place}, {why}"
        found = show(message, step=step, write=writes + 1, error=errno.ETIMEDOUT)
        assert found == shown(message, text, reads, writes), f"{message}, all writes before the one that fails"
