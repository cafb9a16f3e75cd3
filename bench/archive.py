#!/usr/bin/env python3
"""Measures examples/archive on this machine, and prints a line for each figure.

A mailbox of 1 GB with 200,000 made mails is read and loaded. Then a million mails are loaded, whose lines are written
here with the words of a large vocabulary, some frequent and some rare, and searched; the pages of web.py are fetched. It
takes about 10 GB and some minutes. --mails N makes fewer of the million. With --directory the mails and lines stay there
for later runs, and --prepare makes only these, so that the run that measures takes two minutes. The program rocktray
must be built or installed. The last lines are the paragraph "Measured" of examples/archive/README.md.
"""
import argparse
import json
import os
import random
import socket
import subprocess
import sys
import tempfile
import textwrap
import time
import urllib.parse
import urllib.request

import made_mails

TOP = os.path.dirname(os.path.dirname(os.path.abspath(__file__)))
EXAMPLES = os.path.join(TOP, "examples", "archive")
LETTERS = "etaoinshrdlucmfwypvbgk"
SHARD = 25_000
# the least of this many times
TURNS = 5


def ran(name, *arguments):
    """Runs a program of the archive. Returns how many seconds it took."""
    begun = time.perf_counter()
    ended = subprocess.run([sys.executable, os.path.join(EXAMPLES, name), *arguments], capture_output=True, text=True, check=False)
    if ended.returncode > 1:  # 1 is a search that finds nothing
        sys.exit(ended.stderr)
    return time.perf_counter() - begun


def fastest(call, *arguments):
    """Returns the least seconds of some calls."""
    return min(call(*arguments) for _ in range(TURNS))


def write_mailbox(directory):
    """Writes a mailbox of 1 GB, unless it is there."""
    path = os.path.join(directory, "all.mbox")
    os.makedirs(directory, exist_ok=True)
    if not os.path.exists(path):
        with open(f"{path}.part", "wb") as file:
            for mail in made_mails.mails(100):
                file.write(b"From a@example.org Sun Oct  2 14:06:22 2016\r\n" + mail + b"\r\n")
        os.replace(f"{path}.part", path)
    return os.path.getsize(path)


def megabytes(directory):
    """Returns the size of the files of a directory."""
    return sum(entry.stat().st_size for entry in os.scandir(directory)) / 1e6


def gigabyte(data, work):
    """Reads and loads a mailbox of 1 GB. Returns what the README says of it."""
    size, index, database = write_mailbox(data), os.path.join(work, "index"), os.path.join(work, "gigabyte.db")
    reading, loading = ran("index_archive.py", index, data), ran("load_sqlite.py", index, database)
    rates = [f"{200_000 / seconds:,.0f}" for seconds in (loading, reading + loading)]
    print(f"200,000 mails, {size / 1e9:.2f} GB: read in {reading:.1f} s, loaded in {loading:.1f} s, {rates[0]} mails a second; both {rates[1]} a second")
    return (f"a mailbox of {size / 1e9:.1f} GB with 200,000 mails was read in {reading:.0f} s into shards of {megabytes(index):.0f} MB, and loaded in "
            f"{loading:.0f} s, {rates[0]} mails a second, into {megabytes(database):.0f} MB.")


def vocabulary(rng):
    """Returns words, and a text in which each is as frequent as its rank says."""
    words = ["".join(rng.choice(LETTERS) for _ in range(rng.randrange(3, 9))) for _ in range(60_000)]
    return words, rng.choices(words, [1 / (rank + 10) for rank in range(len(words))], k=400_000)


def line_of(number, rng, words, text):
    """Returns the object of a mail, as rocktray json writes it; seven mails are a thread."""
    at, first = rng.randrange(len(text) - 200), number - number % 7
    sender, to = (f"{words[int(5000 * rng.random() ** power)]}@example.org" for power in (3, 2))
    subject = " ".join(text[first % 300_000 : first % 300_000 + 6])
    parts = [{"path": "1", "type": "text/plain", "extracted": False, "file_name": None, "text": " ".join(text[at : at + 100]),
              "text_files": [], "headers": [["List-Id", f"<l{number % 200}.example>"]] if number % 3 else []}]
    if number % 5 == 0:
        kind = rng.choice(["application/pdf", "image/png"])
        parts.append({"path": "2", "type": kind, "extracted": True, "file_name": f"{text[at]}.pdf", "text": None, "text_files": [], "headers": []})
    return {
        "schema": 6, "file": "box", "number": number, "start": number, "end": number + 1, "message_id": [f"{number}@example.org"],
        "in_reply_to": [], "references": [f"{first}@example.org"] if number % 7 else [], "date": 1_000_000_000 + number * 500,
        "from": [{"name": sender.split("@")[0], "address": sender}], "to": [{"name": None, "address": to}], "cc": [], "bcc": [],
        "subject": ("Re: " if number % 7 else "") + subject, "parts": parts,
    }  # fmt: skip


def write_index(directory, count):
    """Writes the shards of made mails, unless they are there. Returns the words, the most frequent first."""
    rng = random.Random(made_mails.SEED)
    words, text = vocabulary(rng)
    names = [f"{first:032x}.jsonl" for first in range(0, count, SHARD)]
    manifest = "".join(json.dumps({"shard": name, "mails": count}) + "\n" for name in names)
    path = os.path.join(directory, "MANIFEST")
    if os.path.exists(path) and read_text(path) == manifest:
        return words
    os.makedirs(directory, exist_ok=True)
    for name, first in zip(names, range(0, count, SHARD)):
        with open(os.path.join(directory, name), "w", encoding="utf-8") as shard:
            shard.writelines(json.dumps(line_of(number, rng, words, text)) + "\n" for number in range(first, min(count, first + SHARD)))
    with open(path, "w", encoding="utf-8") as file:
        file.write(manifest)
    return words


def read_text(path):
    """Returns the text of a file."""
    with open(path, encoding="utf-8") as file:
        return file.read()


def fetched(url):
    """Returns the seconds in which a page comes."""
    begun = time.perf_counter()
    with urllib.request.urlopen(url, timeout=60) as page:
        page.read()
    return time.perf_counter() - begun


def served(database):
    """Starts web.py. Returns the process and the address."""
    with socket.create_server(("127.0.0.1", 0)) as free:
        port = free.getsockname()[1]
    command = [sys.executable, os.path.join(EXAMPLES, "web.py"), database, "--port", str(port)]
    server = subprocess.Popen(command, stdout=subprocess.DEVNULL, stderr=subprocess.DEVNULL)
    for _ in range(200):
        try:
            socket.create_connection(("127.0.0.1", port), 1).close()
            break
        except OSError:
            time.sleep(0.05)
    return server, f"http://127.0.0.1:{port}"


def million(index, work, count):
    """Loads and searches many mails, and fetches pages of them. Returns what the README says of it."""
    words, database = write_index(index, count), os.path.join(work, "million.db")
    seconds = ran("load_sqlite.py", index, database)
    print(f"{count:,} mails: loaded in {seconds:.0f} s, {count / seconds:,.0f} mails a second")
    searches = {"the most frequent word": [words[0]], "two frequent words": words[:2], "two words": words[200:202], "a rare word": [words[40_000]]}
    found = {name: 1000 * fastest(ran, "search.py", database, *asked) for name, asked in searches.items()}
    for name, milliseconds in found.items():
        print(f"search.py, {name}: {milliseconds:.0f} ms")
    server, address = served(database)
    paths = {name: "/?q=" + urllib.parse.quote(" ".join(asked)) for name, asked in searches.items()}
    paths |= {"the first page": "/", "a year": "/?year=2005", "mails with files": "/?has=attachment", "a type of file": "/?type=image/png",
              "a list": "/?list=l5.example", "a thread": "/thread?id=70@example.org", "a mail": "/mail/0/5",
              "the plot of months": "/plots/months.svg", "the plot of senders": "/plots/senders.svg"}
    pages = {name: 1000 * fastest(fetched, address + path) for name, path in paths.items()}
    for name, milliseconds in pages.items():
        print(f"page, {name}: {milliseconds:.0f} ms")
    server.terminate()
    return (f"{count:,} mails were loaded at {count / seconds:,.0f} a second; a search over them took {min(found.values()):.0f} to "
            f"{max(found.values()):.0f} ms, and a page {min(pages.values()):.0f} to {max(pages.values()):.0f} ms.")


def main():
    parser = argparse.ArgumentParser(description=__doc__, formatter_class=argparse.RawDescriptionHelpFormatter)
    parser.add_argument("--mails", type=int, default=1_000_000)
    parser.add_argument("--directory", metavar="DIRECTORY", help="where the mails and lines stay, and databases are for a while")
    parser.add_argument("--prepare", action="store_true", help="only write the mails and lines")
    given = parser.parse_args()
    with tempfile.TemporaryDirectory(dir=given.directory) as work:
        data = os.path.abspath(given.directory or work)
        mails, lines = os.path.join(data, "mails"), os.path.join(data, "lines")
        if given.prepare:
            write_mailbox(mails)
            write_index(lines, given.mails)
        else:
            first, second = gigabyte(mails, work), million(lines, work, given.mails)
            rest = "`bench/archive.py` measures this. `tests/test_archive.py` runs all of it on 60 MB, kills workers meanwhile, and compares the bytes " \
                "with those of one process."
            print("\n" + textwrap.fill(f"On one machine with {os.cpu_count()} processors, {first} {second} {rest}", 120, break_on_hyphens=False))


if __name__ == "__main__":
    main()
