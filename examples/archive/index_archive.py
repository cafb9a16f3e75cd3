#!/usr/bin/env python3
"""Reads the mailboxes and Maildirs of shared directories on many machines, with dask.distributed and rocktray.

Every machine sees the directories, OUT and the program under the same paths. A large mailbox is read in equal parts,
and small files are read together. Packed files are unpacked by gzip, xz, bzip2 or zstd. The lines of each part go to a
file in OUT, a shard, which gets its name when it is complete. The name is a hash of the part, the paths, sizes and times
of its files, the program and how it is run: no part is read twice, however often a run is interrupted, and a mailbox that changed is
read again. OUT/MANIFEST, written last, names the shards in order; other shards are removed. Files that cannot be read
are named there and on standard error, and the exit status is 1, or 0 with --skip-bad; the next run tries them again.
Files that begin as those of other formats do, such as images, are counted and skipped.
"""
import argparse
import collections
import concurrent.futures
import contextlib
import fcntl
import functools
import hashlib
import json
import os
import pathlib
import re
import subprocess
import sys
import tempfile
import uuid
import zlib

from program import rocktray
from search import HIDDEN

# the number of bytes of messages of a program that are shown
MESSAGE = 4096
# how a part is read: with the hashes of files, by which load_sqlite.py distinguishes mails with one message id
JSON = ["json", "--html-text", "--hash"]
OURS = re.compile(r"[0-9a-f]{32}\.jsonl|\.part-[0-9a-f]{32}")
NO_TEXT = re.compile("[\udc80-\udcff]")
# what packed files begin with, and the programs that unpack them
PACKED = ((b"\x1f\x8b", "gzip"), (b"\xfd7zXZ\0", "xz"), (b"BZh", "bzip2"), (b"\x28\xb5\x2f\xfd", "zstd"))
# what other files than mail begin with, and what they are
FOREIGN = (
    (b"PK\x03\x04", "ZIP archives"),
    (b"7z\xbc\xaf\x27\x1c", "7-Zip archives"),
    (b"Rar!", "RAR archives"),
    (b"\xd0\xcf\x11\xe0\xa1\xb1\x1a\xe1", "OLE files, such as those of Outlook"),
    (b"!BDN", "PST files of Outlook"),
    (b"// <!-- <mdb:mork", "indexes of Thunderbird"),
    (b"SQLite format 3\0", "SQLite databases"),
    (b"\x89PNG", "PNG images"),
    (b"\xff\xd8\xff", "JPEG images"),
    (b"GIF8", "GIF images"),
    (b"%PDF-", "PDF files"),
    (b"\x7fELF", "programs"),
)
INDEXES = re.compile(r"dovecot[.-].*|\..*|.*\.(?:msf|idx|cmeta)")


def state(path):
    """Returns a file with its size and time."""
    try:
        found = os.stat(path)
        return path, found.st_size, found.st_mtime_ns
    except OSError:  # rocktray says why
        return path, 0, None


def first_bytes(path):
    """Returns the first bytes of a file; empty if it cannot be read, which is said when it is read."""
    try:
        with open(path, "rb") as file:
            return file.read(24)
    except OSError:
        return b""


def unpacker(path):
    """Returns the program that unpacks a file, or None if it is not packed."""
    first = first_bytes(path)
    return next((program for begin, program in PACKED if first.startswith(begin)), None)


def what_is(path):
    """Returns what a file is, if it is no mail: by its name or its first bytes, or None."""
    if INDEXES.fullmatch(os.path.basename(path)):
        return "indexes of mail programs"
    first = first_bytes(path)
    return next((name for begin, name in FOREIGN if first.startswith(begin)), None)


def label(path):
    """Returns a path as text. Bytes that are not UTF-8 are shown as in `\\xE9`."""
    return os.fsencode(path).decode("utf-8", "backslashreplace")


class Found:
    """The files of an archive: those to be read, those that cannot be read with the reason, and what is no mail."""

    def __init__(self, out):
        self.out, self.faults, self.skipped = out, [], []

    def visit(self, directory, options=()):
        """Yields the files of a directory and of those inside it, with the options for rocktray json."""
        try:
            entries = sorted(os.scandir(directory), key=lambda entry: entry.name)
        except OSError as fault:
            self.faults.append((directory, fault.strerror))
            return
        inside = [entry for entry in entries if entry.is_dir(follow_symlinks=False) and entry.path != self.out]
        is_maildir = any(entry.name in ("cur", "new") for entry in inside)
        if not is_maildir:
            files = [entry.path for entry in entries if entry.is_file() and not entry.name.startswith(".")]
            yield list(options), self.mails(files, options)
        for entry in inside:
            if entry.name != "tmp" if is_maildir else not entry.name.startswith("."):
                is_mails = is_maildir and entry.name in ("cur", "new")
                yield from self.visit(entry.path, ["--mail"] if is_mails else [])

    def mails(self, paths, options):
        """Returns the files that can be read and may be mail, with their states. All files of a Maildir are mails."""
        found = []
        for path in paths:
            if not os.access(path, os.R_OK):
                self.faults.append((path, "Permission denied" if os.path.exists(path) else "No such file or directory"))
            elif kind := None if options else what_is(path):
                self.skipped.append((path, kind))
            else:
                found.append(state(path))
        return found

    def said_of_skipped(self):
        """Returns how many files were skipped, and what they are."""
        kinds = collections.Counter(kind for _, kind in self.skipped)
        return ", ".join(f"{count} {kind}" for kind, count in kinds.most_common())


def batches(files, most):
    """Yields files that are read together. Certain names always end a batch, so that most batches remain the same when
    files are added or removed."""
    batch, total, is_end = [], 0, False
    for file in files:
        path, size, _ = file
        if batch and (is_end or total + size > most):
            yield batch
            batch, total = [], 0
        batch.append(file)
        total += size
        is_end = len(batch) == 2000 or zlib.crc32(os.path.basename(path).split(":")[0].encode()) % 500 == 0
    if batch:
        yield batch


def parts(options, files, most):
    """Yields the options and the files of each run of rocktray json. A part of a mailbox is a run of its own, and so is a
    file that is read from standard input: one that is packed, or whose name is not UTF-8."""
    alone = {file: unpacker(file[0]) or NO_TEXT.search(file[0]) for file in files}
    for batch in batches([file for file in files if not alone[file]], most):
        count = max(1, -(-sum(size for _, size, _ in batch) // most))
        for number in [1] if options else range(1, count + 1):
            yield options or ["--part", f"{number}/{count}"], batch
    for file in filter(alone.get, files):
        yield [*options, "--label", label(file[0])], [file]


def title(options, files):
    """Returns the title of a part."""
    shown = " ".join(options if "--label" not in options else options[:-2])
    more = f" and {len(files) - 1} more" if len(files) > 1 else ""
    return f"{label(files[0][0])}{more}{f' ({shown})' if shown else ''}"


def read_alone(command, path, shard):
    """Reads a file from standard input into a shard, unpacked if it is packed. Returns the error or None."""
    program = unpacker(path)
    if program is None:
        with open(path, "rb") as file:
            return read_files(command, file, shard)
    with tempfile.TemporaryFile() as said:  # and no pipe, which is full after 64 kB
        try:
            unpack = subprocess.Popen([program, "-dc", "--", path], stdin=subprocess.DEVNULL, stdout=subprocess.PIPE, stderr=said)
        except FileNotFoundError:
            return f"{program} is not installed"
        with unpack:
            fault = read_files(command, unpack.stdout, shard)
            unpack.stdout.close()
        said.seek(0)
        if not fault and unpack.returncode:
            fault = f"{program}: exit status {unpack.returncode}: {said.read(MESSAGE).decode(errors='replace').strip()}"
    return fault


def read_files(command, stdin, shard):
    """Reads files, or standard input, into a shard, and returns the error or None."""
    ended = subprocess.run(command, stdin=stdin, stdout=shard, stderr=subprocess.PIPE, check=False)
    if ended.returncode in (0, 3):
        return None
    return f"exit status {ended.returncode}: {ended.stderr[:MESSAGE].decode(errors='replace').strip()}"


def shard_of(version, part):
    """Returns the name of the shard of a part, given a hash of the program."""
    return f"{hashlib.sha256(repr((version, JSON, part)).encode('utf-8', 'surrogateescape')).hexdigest()[:32]}.jsonl"


def write_shard(name, part, out, program):
    """Reads a part into its shard, which gets its name when it is complete. Returns the error or None."""
    options, files = part
    unfinished = os.path.join(out, f".part-{uuid.uuid4().hex}")
    try:
        with open(unfinished, "xb") as shard:
            if "--label" in options:
                fault = read_alone([program, *JSON, *options], files[0][0], shard)
            else:
                fault = read_files([program, *JSON, *options, *(path for path, _, _ in files)], subprocess.DEVNULL, shard)
            os.fsync(shard.fileno())
        if not fault and [state(path) for path, _, _ in files] != files:
            fault = "changed while it was read"
        if not fault:
            os.replace(unfinished, os.path.join(out, name))
        return fault
    except OSError as fault:
        return str(fault)
    finally:
        if os.path.exists(unfinished):
            os.remove(unfinished)


def read(part, out, program, version):
    """Reads a part. If that fails, the files of a batch are read by halves, so that only those that fail are refused.
    Returns the parts that this makes of it, each with its error or None. A part whose shard is there is not read again."""
    name = shard_of(version, part)
    fault = None if os.path.exists(os.path.join(out, name)) else write_shard(name, part, out, program)
    options, files = part
    if not fault or len(files) == 1:
        return [(part, fault)]
    half = len(files) // 2
    return [one for some in (files[:half], files[half:]) for one in read((options, some), out, program, version)]


def run_here(wanted, places):
    """Reads these parts in threads. Yields for each what `read` returns."""
    with concurrent.futures.ThreadPoolExecutor(os.cpu_count()) as pool:
        yield from pool.map(lambda part: read(part, **places), wanted)


def run_there(scheduler, wanted, places):
    """Reads these parts on the workers. Yields for each what `read` returns, or why it did not return."""
    try:
        from dask.distributed import Client, progress, wait  # here, so that the rest needs no dask
    except ImportError as fault:
        why = f"this Python has no {fault.name}: on Debian install python3-distributed, and run it by /usr/bin/python3"
        print(f"index_archive.py: {why}; without --scheduler this machine reads all", file=sys.stderr)
        sys.exit(2)
    with Client(address=scheduler) as client:
        futures = client.map(read, wanted, pure=False, **places)
        if sys.stdout.isatty():
            progress(futures)
        wait(futures)
        finished = [future for future in futures if future.status == "finished"]
        results = dict(zip((future.key for future in finished), client.gather(finished)))
        for part, future in zip(wanted, futures):
            yield results[future.key] if future.key in results else [(part, repr(future.exception()))]


def parts_of(found, paths, most):
    """Returns the parts of the archive."""
    wanted = []
    for top in paths:
        for reading, files in found.visit(top) if os.path.isdir(top) else [([], found.mails([top], []))]:
            wanted += parts(reading, files, most)
    return wanted


def write_manifest(out, done, version, found):
    """Writes MANIFEST: the shards, each with the sizes and times of its files, the parts and files that could not be read,
    and those that are no mail. Removes all other shards. Returns a line for each part and file that could not be read."""
    shards = {shard_of(version, part): part for part, fault in done if not fault}
    lines = [{"shard": name, "read": title(*part), "files": [(label(path), *more) for path, *more in part[1]]} for name, part in shards.items()]
    lines += [{"refused": title(*part), "why": fault} for part, fault in done if fault]
    lines += [{"refused": label(path), "why": why} for path, why in found.faults]
    lines += [{"skipped": label(path), "is": kind} for path, kind in found.skipped]
    manifest = os.path.join(out, "MANIFEST")
    with open(f"{manifest}.new", "w", encoding="utf-8") as file:
        file.writelines(json.dumps(line) + "\n" for line in lines)
    os.replace(f"{manifest}.new", manifest)
    for name in set(filter(OURS.fullmatch, os.listdir(out))) - set(shards):
        os.remove(os.path.join(out, name))
    return [f"{line['refused']}: {line['why']}" for line in lines if "refused" in line]


@contextlib.contextmanager
def locked(out):
    """Keeps other runs from writing to the same directory, whose shards each would remove as those of no part. Exits if one
    runs. The lock ends with the process; a file system without locks has none."""
    with open(os.path.join(out, ".lock"), "ab") as file:
        try:
            fcntl.flock(file, fcntl.LOCK_EX | fcntl.LOCK_NB)
        except BlockingIOError:
            print(f"index_archive.py: another run writes to {out}: wait until it has ended", file=sys.stderr)
            sys.exit(2)
        except OSError as fault:
            print(f"index_archive.py: {out} cannot be locked ({fault.strerror}): start no other run that writes to it", file=sys.stderr)
        yield


def arguments():
    """Returns the parser of the arguments."""
    parser = argparse.ArgumentParser(description=__doc__, formatter_class=argparse.RawDescriptionHelpFormatter)
    parser.add_argument("out", metavar="OUT", type=os.path.abspath)
    parser.add_argument("paths", metavar="PATH", nargs="+", type=os.path.abspath, help="a directory or a mailbox")
    parser.add_argument("--scheduler", metavar="ADDRESS", help="by default, as many parts are read at once as there are processors here")
    parser.add_argument("--program", metavar="ROCKTRAY", help="by default the one that is built here, in a release that is unpacked here, or installed")
    parser.add_argument("--load", metavar="DATABASE", help="load the index into this database, as load_sqlite.py does")
    parser.add_argument("--hash", action="store_true", help=argparse.SUPPRESS)  # of earlier versions; now always so
    parser.add_argument("--skip-bad", action="store_true", help="end with exit status 0 although files could not be read")
    parser.add_argument("--bytes", type=int, default=32 << 20, help="the greatest size of a part; 32 MiB by default")
    return parser


def index(given, program):
    """Reads the missing parts, and writes MANIFEST. Returns whether all was read."""
    found = Found(given.out)
    version = hashlib.sha256(pathlib.Path(program).read_bytes()).hexdigest()
    wanted = {shard_of(version, part): part for part in parts_of(found, given.paths, given.bytes)}
    unread = {name: part for name, part in wanted.items() if not os.path.exists(os.path.join(given.out, name))}
    try:
        places = {"out": given.out, "program": program, "version": version}
        run = functools.partial(run_there, given.scheduler) if given.scheduler and unread else run_here
        results = dict(zip(unread, run(list(unread.values()), places)))
    except KeyboardInterrupt:
        print("index_archive.py: interrupted; the next run goes on from here", file=sys.stderr, flush=True)
        os._exit(130)  # without the messages of what dask still runs
    done = [one for name, part in wanted.items() for one in results.get(name, [(part, None)])]
    said = write_manifest(given.out, done, version, found)
    is_bad = bool(said)
    if found.skipped:
        said.append(f"skipped, since they are no mail: {found.said_of_skipped()}")
    for line in said:
        print(f"index_archive.py: {HIDDEN.sub(chr(0xFFFD), line)}", file=sys.stderr)
    return not is_bad


def main():
    """Makes the index, and loads it if that is asked for."""
    given = arguments().parse_args()
    program = rocktray(given.program)
    os.makedirs(given.out, exist_ok=True)
    with locked(given.out):
        status = 0 if index(given, program) or given.skip_bad else 1
    if given.load:
        loader = os.path.join(os.path.dirname(os.path.abspath(__file__)), "load_sqlite.py")
        status = max(status, subprocess.run([sys.executable, loader, given.out, given.load], check=False).returncode)
    sys.exit(status)


if __name__ == "__main__":
    main()
