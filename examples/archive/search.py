#!/usr/bin/env python3
"""Searches the mails that load_sqlite.py loaded, and writes a line for each, the latest first.

QUERY is a query of FTS5, the full-text search of SQLite, over subject, sender, recipients and body:

  invoice                   mails with this word
  invoice overdue           with both words
  invoice OR bill           with one of them
  invoice NOT draft         with the first but not the second
  "due on Monday"           with these words, one after another
  inv*                      with a word that begins so
  subject: invoice          with this word in the subject
  sender: "ana@example.org" sent by this address; also recipients: and body:
  NEAR(ship date, 5)        with both words at most 5 words apart
  (invoice OR bill) paid    brackets group

Upper and lower case and accents make no difference. A word with other characters than letters and digits needs double
quotes. A line has the time in UTC, the sender, the subject, the names of the files, the number of copies with the same
bytes, and the location of the first one, `FILE:START-END`, separated by tabs. Mails with one message id that differ have a
line each. Control characters are replaced. The exit status is 0 if a mail
was found, 1 if none was, and 2 for wrong arguments and for a mail that cannot be read.
"""
import argparse
import concurrent.futures
import contextlib
import datetime
import errno
import glob
import heapq
import itertools
import json
import os
import re
import sqlite3
import subprocess
import sys
import urllib.parse
from typing import NamedTuple

from program import rocktray

# the version of the tables of load_sqlite.py
VERSION = 5
COLUMNS = ("message_id", "date", "time", "sender", "recipients", "subject", "list_id", "files", "copies", "same_id", "file", "start", "end", "file_size", "file_time")
FOUND = """
select message_id, date, datetime(date, 'unixepoch'), sender, recipients, subject, list_id,
    (select json_group_array(name) from attachments where mail = mails.id),
    (select count(*) from copies where mail = mails.id), (select count(*) from mails other where other.message_id = mails.message_id),
    file, start, "end", file_size, file_time, mails.id
from mails join copies on copies.rowid = (select min(rowid) from copies where mail = mails.id)
where mails.id in (select value from json_each(?))
"""
# the number of mails above which it is faster to look through all mails in the order of time
COMMON = 5000
# more mails than there are
ALL = 1 << 62
NEVER = float("-inf")
# controls but for a tab and a LF, what ends a line or changes the direction of text, and the numbers of no character
UNSEEN = "\x00-\x08\x0b-\x1f\x7f-\x9f\u061c\u200e\u200f\u2028-\u202e\u2066-\u2069\ud800-\udfff\ufdd0-\ufdef"
UNSEEN += "".join(f"{chr(plane + 0xfffe)}{chr(plane + 0xffff)}" for plane in range(0, 0x110000, 0x10000))
HIDDEN = re.compile(f"[\t\n{UNSEEN}]")
HIDDEN_IN_TEXT = re.compile(f"[{UNSEEN}]")
SEPARATOR = re.compile(rb"^(>*From )", re.MULTILINE)
PACKED = ((b"\x1f\x8b", "gzip"), (b"\xfd7zX", "xz"), (b"BZh", "bzip2"), (b"\x28\xb5\x2f\xfd", "zstd"))
ESCAPE = re.compile(rb"\\x([89a-f][0-9a-f])")


def version_of(path):
    """Returns the version of the tables of a slice."""
    with contextlib.closing(sqlite3.connect(path)) as db:
        return db.execute("pragma user_version").fetchone()[0]


def slices_of(database):
    """Returns the paths of the slices of a database. Exits if there are none, or if they are of another version."""
    paths = sorted(glob.glob(os.path.join(glob.escape(database), "[0-9]*.sqlite")))
    if not paths or any(version_of(path) != VERSION for path in paths):
        why = f"is of another version than {VERSION}: run load_sqlite.py again" if paths else "has no slices of load_sqlite.py"
        print(f"{os.path.basename(sys.argv[0])}: {database} {why}", file=sys.stderr)
        sys.exit(2)
    return paths


def quoted(text):
    """Returns words as a phrase of FTS5."""
    return '"' + text.replace('"', '""') + '"'


class Among(NamedTuple):
    """The condition that a mail is among those of another table: the queries of their numbers and of one mail, with their
    values; and how many mails are listed in the time that the query of one mail takes."""

    numbers: str
    one: str
    values: tuple
    cost: int


def with_words(query):
    """Returns the condition that a mail has words, by a query of FTS5."""
    return Among("select rowid as number from texts where texts match ?", "select 1 from texts where texts match ? and rowid = mails.id", (query,), 100)


def with_file(condition, *values):
    """Returns the condition that a mail has a file with a condition."""
    one = f"select 1 from attachments where mail = mails.id and {condition}"
    return Among(f"select distinct mail as number from attachments where {condition}", one, values, 10)


def conditions(given):
    """Yields the conditions on a mail, each with the values that it has."""
    words = [f"({given.query})"] if given.query else []
    words += [f"sender: {quoted(given.sender)}"] if given.sender else []
    words += [f"recipients: {quoted(given.to)}"] if given.to else []
    if words:
        yield with_words(" AND ".join(words))
    if given.after is not None:
        yield "date >= ?", given.after
    if given.before is not None:
        yield "date < ?", given.before
    if given.list:
        yield "list_id = ?", given.list.lower()
    if given.has:
        yield with_file("number = 0")
    if given.attachment:
        yield with_file("name like ?", f"%{given.attachment}%")
    if given.hash:
        yield with_file("sha256 = ?", given.hash.lower())
    if given.id:
        yield "message_id = ?", given.id
    if given.thread:
        yield in_order(given.order)


def hexadecimal(texts):
    """Returns texts as a value of `json_each`, which ends a text at a NUL: their bytes in hexadecimal digits, of which
    `text_of` of a slice makes the texts."""
    return json.dumps([one.encode().hex() for one in texts])


def in_order(order):
    """Returns the condition that a mail is among those of a thread."""
    return "message_id in (select text_of(value) from json_each(?))", hexadecimal(one for one, _ in order)


def tree_of(database, message_id):
    """Returns the ids of the thread of a mail, each with its level, from the top and in the order of a walk through the tree."""
    with contextlib.closing(sqlite3.connect(os.path.join(database, "threads.sqlite"))) as db:
        query = "select message_id, parent from threads where top = (select top from threads where message_id = ?)"
        rows = db.execute(f"{query} order by date is null desc, date desc, message_id desc", (message_id,)).fetchall()
    children = {}
    for one, parent in rows:
        children.setdefault(parent, []).append(one)
    order, waiting = [], [(one, 0) for one in children.get(None, ())]
    while waiting:
        one, level = waiting.pop()
        order.append((one, level))
        waiting += [(it, level + 1) for it in children.get(one, ())]
    return order


def with_threads(found, slices, given):
    """Returns all mails of the threads of those that were found, each thread as a tree, and sets `given.order`. Mails without
    an id, which are in no thread, come last."""
    seen = {None}
    for mail, _, _ in found:
        if mail["message_id"] not in seen:
            order = tree_of(given.database, mail["message_id"])
            seen.update(one for one, _ in order)
            given.order += order
    alone = [it for it in found if it[0]["message_id"] is None]
    return in_tree(found_in(slices, [in_order(given.order)], None)[0], given.order) + alone


def in_tree(found, order):
    """Returns mails in the order of the ids of threads."""
    ranks = {one: rank for rank, (one, _) in enumerate(order)}
    return sorted(found, key=lambda it: ranks[it[0]["message_id"]])


def opened(path):
    """Opens a slice for reading only, in any thread."""
    db = sqlite3.connect(f"file:{urllib.parse.quote(path)}?mode=ro", uri=True, check_same_thread=False)
    db.create_function("text_of", 1, lambda digits: bytes.fromhex(digits).decode(), deterministic=True)
    return db


def in_all(slices, ask):
    """Returns what a call returns for each slice; they are asked at once."""
    with concurrent.futures.ThreadPoolExecutor(len(slices)) as pool:
        return list(pool.map(ask, slices))


class Count(NamedTuple):
    """The number of mails that meet a condition; if not all of them were counted, the number of those that were. `guess` is
    about how many there are."""

    mails: int
    is_whole: bool
    guess: int


def count_of(db, among, every, counted):
    """Counts the mails of a slice of `every` mails that meet a condition, at most `counted` of them."""
    query = f"select count(*), max(number) from (select number from ({among.numbers}) limit ?)"
    count, last = db.execute(query, (*among.values, counted)).fetchone()
    is_whole = count < counted
    return Count(count, is_whole, count if is_whole else count * every // last)


def latest_by_date(db, among, most, every, guess):
    """Returns the latest mails of a slice that meet a condition, at most `most`: looks at the mails in the order of time, up
    to a few times as many as there should be to look at. Returns None if it has not found as many."""
    first, values = "", ()
    if (window := 4 * most * every // max(guess, 1)) < every:
        first, values = "and date >= (select date from mails order by date desc limit 1 offset ?)", (window,)
    query = f"select date, id from mails where exists ({among.one}) {first} order by date desc limit ?"
    rows = db.execute(query, (*among.values, *values, most)).fetchall()
    return rows if len(rows) == most else None


def latest_in(db, wheres, most, counted):
    """Returns what `latest` does, for a slice."""
    tables, columns = ([it for it in wheres if isinstance(it, Among) == is_table] for is_table in (True, False))
    every = db.execute("select coalesce(max(id), 0) from mails").fetchone()[0]
    counts = [count_of(db, it, every, counted) for it in tables]
    is_only = len(wheres) == len(tables) == 1
    if is_only and most is not None and counts[0].guess ** 2 > tables[0].cost * most * every:
        rows = latest_by_date(db, tables[0], most, every, counts[0].guess)
        if rows is not None:
            return rows, counts[0].mails, counts[0].is_whole
    parts = [f"{'+' * (count.guess > COMMON)}mails.id in ({it.numbers})" for it, count in zip(tables, counts)]
    where = " and ".join([*parts, *(condition for condition, *_ in columns)]) or "true"
    values = [value for it in tables for value in it.values] + [value for _, *some in columns for value in some]
    limit = -1 if most is None or (tables and not is_only) else most
    rows = db.execute(f"select date, id from mails where {where} order by date desc limit ?", (*values, limit)).fetchall()
    if is_only:
        return rows, counts[0].mails, counts[0].is_whole
    total = len(rows) if tables else db.execute(f"select count(*) from mails where {where}", values).fetchone()[0]
    return rows[:most], total, True


def latest(slices, wheres, most, counted=ALL):
    """Returns of each slice the latest mails that meet the conditions, at most `most`, each by its date and its number; how
    many there are in all slices, of a frequent word at most `counted` of each slice; and whether none are more."""
    answers = in_all(slices, lambda db: latest_in(db, wheres, most, counted))
    return [rows for rows, _, _ in answers], sum(total for _, total, _ in answers), all(is_whole for _, _, is_whole in answers)


def mails_of(slices, chosen, first, last):
    """Returns some of the latest mails of all slices, from the first up to the last number, those without a date last. With
    each mail are its slice and its number there."""
    rows = heapq.merge(*([(*row, of) for row in rows] for of, rows in enumerate(chosen)), key=lambda it: NEVER if it[0] is None else it[0], reverse=True)
    wanted = [(of, number) for _, number, of in itertools.islice(rows, first, last)]
    found = {}
    for of, db in enumerate(slices):
        numbers = json.dumps([number for it, number in wanted if it == of])
        found.update(((of, row[-1]), dict(zip(COLUMNS, row))) for row in db.execute(FOUND, (numbers,)))
    return [(found[it], slices[it[0]], it[1]) for it in wanted]


def found_in(slices, wheres, limit):
    """Returns the mails of all slices that meet the conditions, the latest first, and their number without the limit."""
    chosen, total, _ = latest(slices, wheres, limit)
    return mails_of(slices, chosen, 0, limit), total


def path_of(label):
    """Returns the path of a file, in whose label bytes that are not UTF-8 are shown as in `\\xE9`."""
    path = os.fsencode(label)
    return path if os.path.exists(path) else ESCAPE.sub(lambda it: bytes.fromhex(it[1].decode()), path)


def bytes_of(mail):
    """Returns the bytes of the first copy of a mail, also if its file is packed. Raises OSError if the file has changed since it
    was indexed: what is there now may be another mail."""
    path = path_of(mail["file"])
    with open(path, "rb") as file:
        now = os.fstat(file.fileno())
        if mail.get("file_time") is not None and (now.st_size, now.st_mtime_ns) != (mail["file_size"], mail["file_time"]):
            raise OSError(errno.ESTALE, "it has changed since it was indexed: run index_archive.py and load_sqlite.py again", mail["file"])
        first = file.read(4)
        if not (program := next((program for begin, program in PACKED if first.startswith(begin)), None)):
            file.seek(mail["start"])
            return file.read(mail["end"] - mail["start"])
    with subprocess.Popen([program, "-dc", "--", path], stdout=subprocess.PIPE) as unpacked:
        left = mail["start"]
        while left and (skipped := unpacked.stdout.read(min(left, 1 << 20))):
            left -= len(skipped)
        raw = unpacked.stdout.read(mail["end"] - mail["start"])
        unpacked.kill()
    return raw


def write_lines(found, given):
    """Writes a line for each mail, and one of the matching words if they are asked for."""
    levels = dict(given.order)
    for mail, db, number in found:
        indent = "  " * levels.get(mail["message_id"], 0)
        files = ", ".join(name for name in json.loads(mail["files"]) if name)
        place = f"{mail['file']}:{mail['start']}-{mail['end']}"
        texts = (mail["time"], mail["sender"], indent + (mail["subject"] or "-"), files, str(mail["copies"]), place)
        print("\t".join(HIDDEN.sub("\ufffd", text or "-") for text in texts))
        if given.snippets and given.query:
            words = "select snippet(texts, -1, '[', ']', ' .. ', 16) from texts where rowid = ? and texts match ?"
            for text, in db.execute(words, (number, given.query)):
                print("   ", HIDDEN.sub(" ", text))


def write_json(found, _):
    """Writes an object for each mail."""
    for mail, _, _ in found:
        print(json.dumps({**mail, "files": json.loads(mail["files"])}))


def write_raw(found, given):
    """Writes the bytes of the only mail."""
    if len(found) != 1:
        sys.exit(f"search.py: --raw writes one mail, and {len(found)} are found: narrow the search, for example by --id, or write all by --mbox")
    sys.stdout.buffer.write(bytes_of(found[0][0]))


def write_mailbox(found, _):
    """Writes a mailbox with the mails, in which lines that begin with `From ` are quoted (mboxrd)."""
    for mail, _, _ in found:
        sent = datetime.datetime.fromtimestamp(min(max(mail["date"] or 0, 0), 253402300799), datetime.timezone.utc)
        raw = SEPARATOR.sub(rb">\1", bytes_of(mail))
        line = f"From MAILER-DAEMON {sent:%a %b %e %H:%M:%S %Y}\n".encode()
        sys.stdout.buffer.write(line + raw + b"\n" * (1 + (raw[-1:] != b"\n")))


def write_shown(found, given):
    """Shows each mail by rocktray show."""
    program = rocktray(given.program)
    for mail, _, _ in found:
        sys.stdout.flush()
        subprocess.run([program, "show", "-"], input=bytes_of(mail), check=True)


WRITERS = {"show": write_shown, "raw": write_raw, "json": write_json, "mbox": write_mailbox}


def seconds(text):
    """Returns the Unix time of the beginning of a day, such as 2025-03-31."""
    try:
        return int(datetime.datetime.fromisoformat(text).replace(tzinfo=datetime.timezone.utc).timestamp())
    except ValueError:
        raise argparse.ArgumentTypeError(f"{text!r} is not a date such as 2025-03-31") from None


def arguments():
    """Returns the parser of the arguments."""
    parser = argparse.ArgumentParser(description=__doc__, formatter_class=argparse.RawDescriptionHelpFormatter)
    parser.add_argument("database", metavar="DATABASE")
    parser.add_argument("query", metavar="QUERY", nargs="*", help="several are one query, with spaces between them")
    parser.add_argument("--from", dest="sender", metavar="WORDS", help="words of the sender's name or address")
    parser.add_argument("--to", metavar="WORDS", help="words of the name or address of a recipient")
    parser.add_argument("--list", metavar="ID", help="the id of a mailing list, as in List-Id")
    parser.add_argument("--after", metavar="DATE", type=seconds, help="from this day onwards, such as 2025-03-31")
    parser.add_argument("--before", metavar="DATE", type=seconds, help="before this day")
    parser.add_argument("--has", choices=["attachment"], help="only mails with files")
    parser.add_argument("--attachment", metavar="NAME", help="a part of the name of a file; %% matches anything")
    parser.add_argument("--hash", metavar="SHA256", help="the SHA-256 of a file")
    parser.add_argument("--id", metavar="ID", help="the message id")
    parser.add_argument("--thread", metavar="ID", help="all mails of the thread of a message id, as a tree")
    parser.add_argument("--threads", action="store_true", help="write the whole threads of the mails that are found, as trees")
    parser.add_argument("--limit", metavar="COUNT", type=int, help="the maximum number of mails; 20 by default, but for a thread")
    parser.add_argument("--snippets", action="store_true", help="write some of the text around the words that match")
    parser.add_argument("--program", metavar="ROCKTRAY", help="the program of --show; by default that of index_archive.py")
    output = parser.add_mutually_exclusive_group()
    output.add_argument("--show", action="store_const", dest="output", const="show", help="show the mails by rocktray show")
    output.add_argument("--raw", action="store_const", dest="output", const="raw", help="write the bytes of the only mail")
    output.add_argument("--json", action="store_const", dest="output", const="json", help="write an object for each mail")
    output.add_argument("--mbox", action="store_const", dest="output", const="mbox", help="write a mailbox (mboxrd)")
    return parser


def main():
    """Writes the mails that are found."""
    parser = arguments()
    given = parser.parse_args()
    given.query = " ".join(given.query)
    paths = slices_of(given.database)
    given.order = tree_of(given.database, given.thread) if given.thread else []
    limit = given.limit if given.limit is not None else None if given.thread else 20
    with contextlib.ExitStack() as stack:
        slices = [stack.enter_context(contextlib.closing(opened(path))) for path in paths]
        try:
            found, total = found_in(slices, list(conditions(given)), limit)
        except sqlite3.OperationalError as fault:
            parser.error(f"the query is wrong ({fault}): put words with other characters than letters and digits in double quotes")
        count = len(found)
        found = with_threads(found, slices, given) if given.threads else in_tree(found, given.order) if given.thread else found
        try:
            WRITERS.get(given.output, write_lines)(found, given)
            sys.stdout.flush()
        except BrokenPipeError:  # the reader of the lines has seen enough
            os.dup2(os.open(os.devnull, os.O_WRONLY), sys.stdout.fileno())
            sys.exit(0)
        except (OSError, subprocess.CalledProcessError) as fault:
            parser.error(str(fault))
    if count < total:
        print(f"search.py: {count} of {total} mails; --limit COUNT changes that", file=sys.stderr)
    sys.exit(0 if found else 1)


if __name__ == "__main__":
    main()
