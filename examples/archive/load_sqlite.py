#!/usr/bin/env python3
"""Loads the index of an archive into SQLite, with full-text search (FTS5) and threads.

OUT is the directory of index_archive.py. DATABASE is a directory of databases, the slices, which are loaded in
parallel, and of one with the threads; search.py searches them all. A mail has one row however many copies the archive
has of it: mails with the same bytes. Mails with one message id that differ are mails of their own, and in one slice: none
hides another. A shard is loaded into a slice in one transaction; the words of its mails and most indexes follow when all
rows are there. Shards that are already loaded are skipped, those that OUT/MANIFEST no longer names are removed, and
missing words are added, so an interrupted run can be continued. A database of an older version is made anew. The tables
of a slice:

  mails        each mail, with what its first copy says, and a hash of that
  copies       the copies of a mail: each is in `file` from `start` to `end`; `flags` are those of a Maildir; the size of the
               file, and its time in nanoseconds, are those that it had when it was read, if OUT/MANIFEST has them
  refused      each mail that was refused, with the `error`
  recipients   the addresses in To, Cc and Bcc
  links        the ids in References and In-Reply-To, in order, the parent last
  attachments  the files of a mail, as `rocktray extract` saves them, each with its SHA-256
  texts        the words of subject, sender, recipients and body
  shards       the loaded shards
  indexed      the last mail whose words are in `texts`

threads.sqlite has the table `threads`: each message id with its parent, if it has one, the top of its thread, and its
date; and the tables `months` and `senders`: the numbers of mails of each month, and of the most frequent senders.
"""
import argparse
import collections
import concurrent.futures
import contextlib
import functools
import gc
import glob
import hashlib
import json
import marshal
import os
import re
import signal
import sqlite3
import sys
import tempfile
import time
import zlib

import threads
from search import VERSION, version_of

SCHEMA = """
pragma journal_mode = wal;
pragma synchronous = normal;
pragma cache_size = -100000;
create table if not exists shards(name text primary key) without rowid;
create table if not exists mails(
    id integer primary key, message_id text, date integer, sender text, recipients text, subject text, list_id text, body text, digest blob);
create unique index if not exists mails_by_digest on mails(digest);
create table if not exists copies(
    mail integer, shard text, file text, start integer, "end" integer, flags text, file_size integer, file_time integer);
create table if not exists refused(shard text, file text, start integer, "end" integer, error text);
create table if not exists recipients(mail integer, address text, name text, primary key(mail, address)) without rowid;
create table if not exists links(mail integer, position integer, id text, primary key(mail, position)) without rowid;
create table if not exists attachments(
    mail integer, number integer, path text, name text, type text, size integer, start integer, "end" integer, sha256 text,
    primary key(mail, number)) without rowid;
create virtual table if not exists texts using fts5(subject, sender, recipients, body, content=mails, content_rowid=id, columnsize=0);
create table if not exists indexed(mail integer);
insert into indexed select 0 where not exists (select 1 from indexed);
"""
# made when the rows are there, which is faster
INDEXES = """
create index if not exists mails_by_message_id on mails(message_id);
create index if not exists mails_by_date on mails(date);
create index if not exists mails_by_list_id on mails(list_id);
create index if not exists mails_by_sender on mails(sender);
create index if not exists copies_by_mail on copies(mail);
create index if not exists copies_by_shard on copies(shard);
create index if not exists recipients_by_address on recipients(address);
create index if not exists attachments_by_sha256 on attachments(sha256);
create index if not exists attachments_by_type on attachments(type);
"""
THREADS = """
begin;
drop table if exists months;
create table months(month text primary key, mails integer) without rowid;
drop table if exists senders;
create table senders(sender text primary key, mails integer) without rowid;
drop table if exists threads;
create table threads(message_id text, parent text, top text, date integer);
"""
# what follows when all threads are there
THREADS_LOADED = (
    "create unique index threads_by_message_id on threads(message_id)", "create index threads_by_top on threads(top)",
    f"pragma user_version = {VERSION}", "commit",
)
MONTH = "select strftime('%Y-%m', ? * 86400, 'unixepoch')"
SENDERS = 1000
# the number of bytes of words that are sorted in memory
BUFFER = "insert into texts(texts, rank) values('hashsize', 100000000)"
WORDS = "id, subject, sender, recipients, body from mails"
# the number of mails whose words are inserted in one transaction
WORDED = 100_000
# the number of the form of the lines
LINES = 6
# what is raised for values that SQLite does not take, such as a number of more than 64 bits
UNFIT = (sqlite3.DataError, sqlite3.IntegrityError, sqlite3.InterfaceError, sqlite3.ProgrammingError, OverflowError, UnicodeEncodeError)
FLAGS = re.compile(r":2,([A-Za-z]+)$")
LIST_ID = re.compile(r"<([^<>\s]+)>\s*$")


def people(value):
    """Returns the text of a header's addresses."""
    return ", ".join(
        people(one["members"]) if "members" in one
        else one["unknown"] if "unknown" in one
        else f"{one['name']} <{one['address']}>" if one["name"]
        else one["address"]
        for one in value
    )


def mailboxes(value):
    """Yields the addresses of a header, those of groups too, in lower case, each with its name."""
    for one in value:
        if "members" in one:
            yield from mailboxes(one["members"])
        elif "address" in one:
            yield one["address"].lower(), one["name"]


def body(parts):
    """Returns the text of a mail: its texts, of HTML the text of this; of a multipart/alternative without HTML, if it has
    plain text."""
    versions = [part["path"].removesuffix(".0") for part in parts if part["type"] == "multipart/alternative"]
    texts = []
    for part in parts:
        if part["text"] and part["text"].strip():
            within = next((path for path in versions if not path or part["path"].startswith(path + ".")), None)
            texts.append((part, within, part["type"] == "text/html"))
    plain = {within for _, within, is_html in texts if not is_html and within is not None}
    shown = [part.get("html_text") if is_html else part["text"] for part, within, is_html in texts if not (is_html and within in plain)]
    if None in shown:
        raise ValueError("a shard has no text of HTML: repeat index_archive.py")
    return "\n".join(shown)


def list_id(line):
    """Returns the id of the mailing list, without its angle brackets, or None."""
    for name, value in line["parts"][0]["headers"]:
        if len(name) == 7 and name.lower() == "list-id":
            found = LIST_ID.search(value)
            return (found[1] if found else value.strip()).lower() or None
    return None


def files_of(part):
    """Yields the members of the file that a part is, or of the files in its text, which have no type of their own."""
    members = ("path", "file_name", "type", "decoded_size", "start", "end", "sha256")
    if part["extracted"]:
        yield tuple(map(part.get, members))
    for file in part["text_files"]:
        yield tuple(map({"type": "application/octet-stream", **file}.get, members))


def moved(one, start):
    """Returns an object of a line with its offsets counted from the start of the mail."""
    return {**one, **{name: one[name] - start for name in ("start", "end") if one.get(name) is not None}}


def digest_of(line):
    """Returns a hash of all that a line says of a mail, but for where the mail is: copies with the same bytes have the same.
    The second version of `marshal` writes the same bytes in each version of Python."""
    start = line["start"]
    lists = {name: [moved(one, start) for one in line.get(name, ())] for name in ("parts", "forwarded")}
    said = marshal.dumps({**moved(line, start), **lists, "file": None, "number": None}, 2)
    return hashlib.blake2b(said, digest_size=20).digest()


def mail_of(line):
    """Returns what a line says: the row of the mail, and those of its recipients, links and attachments."""
    message_id = line["message_id"][0] if line["message_id"] else None
    to = [*line["to"], *line["cc"], *line["bcc"]]
    row = (message_id, line["date"], people(line["from"]), people(to), line["subject"], list_id(line), body(line["parts"]), digest_of(line))
    links = line["references"] or line["in_reply_to"][:1]
    return row, list(dict(mailboxes(to)).items()), links, [file for part in line["parts"] for file in files_of(part)]


def read_line(line):
    """Returns the object of a line of a shard."""
    try:
        return json.loads(str(line, "utf-8"))
    except ValueError as fault:
        raise ValueError(f"a shard is damaged ({fault}): remove it, and repeat index_archive.py") from None


@functools.lru_cache(maxsize=1)
def flags_of(file):
    """Returns the flags that the name of a file of a Maildir has, or None. The mails of a mailbox have one file."""
    flags = FLAGS.search(file or "")
    return flags[1] if flags else None


def deal(path, shard, count, scratch, files):
    """Reads a shard of some files, each with its size and time, and writes what each of `count` slices gets of it to a file.
    Returns the names of these."""
    dealt = [([], []) for _ in range(count)]
    with open(path, "rb") as lines:
        for line in map(read_line, lines):
            if line["schema"] != LINES:
                raise ValueError(f"{path} has lines of schema {line['schema']}, not {LINES}: repeat index_archive.py")
            origin = (line["file"], line["start"], line["end"])
            if "error" in line:
                _, refused = dealt[zlib.crc32(f"{origin[0]}:{origin[1]}".encode()) % count]
                refused.append((shard, *origin, line["error"]))
            else:
                row, *more = mail_of(line)
                key = row[-1] if row[0] is None else row[0].encode("utf-8", "surrogatepass")
                dealt[zlib.crc32(key) % count][0].append(((*origin, flags_of(line["file"]), *files.get(line["file"], (None, None))), (row, *more)))
    names = [os.path.join(scratch, f"{shard}.{number}") for number in range(count)]
    for name, part in zip(names, dealt):
        with open(name, "wb") as file:
            marshal.dump(part, file)
    return names


def delete_mails(db, ids):
    """Deletes mails with all that belongs to them."""
    given = json.dumps(ids)
    chosen = "in (select value from json_each(?))"
    db.execute(f"insert into texts(texts, rowid, subject, sender, recipients, body) select 'delete', {WORDS} where id {chosen}", (given,))
    for table, column in (("mails", "id"), ("recipients", "mail"), ("links", "mail"), ("attachments", "mail")):
        db.execute(f"delete from {table} where {column} {chosen}", (given,))


def remove(db, shard):
    """Removes the copies of a shard, and the mails of which no copy is left."""
    ids = [one for one, in db.execute("select distinct mail from copies where shard = ?", (shard,))]
    db.execute("delete from copies where shard = ?", (shard,))
    left = {one for one, in db.execute("select mail from copies where mail in (select value from json_each(?))", (json.dumps(ids),))}
    delete_mails(db, [one for one in ids if one not in left])
    db.execute("delete from refused where shard = ?", (shard,))
    db.execute("delete from shards where name = ?", (shard,))


def known_of(db, mails):
    """Returns the numbers of those mails that a slice has, by their hashes."""
    known = {}
    for one in {row[-1] for _, (row, *_) in mails}:
        known.update(db.execute("select digest, id from mails where digest = ?", (one,)))
    return known


def insert(db, shard, mails, refused):
    """Inserts what a slice gets of a shard. Returns the number of copies."""
    known = known_of(db, mails)
    fresh = db.execute("select max((select coalesce(max(id), 0) from mails), mail) + 1 from indexed").fetchone()[0]
    rows, copies, recipients, links, files = [], [], [], [], []
    for origin, (row, to, ids, attached) in mails:
        number = known.get(row[-1])
        if number is None:
            number, fresh = fresh, fresh + 1
            known[row[-1]] = number
            rows.append((number, *row))
            recipients += [(number, *one) for one in to]
            links += [(number, position, one) for position, one in enumerate(ids)]
            files += [(number, position, *one) for position, one in enumerate(attached)]
        copies.append((number, shard, *origin))
    for table, width, given in (("mails", 9, rows), ("copies", 8, copies), ("recipients", 3, recipients), ("links", 3, links), ("attachments", 9, files)):
        db.executemany(f"insert into {table} values({','.join('?' * width)})", given)
    db.executemany("insert into refused values(?, ?, ?, ?, ?)", refused)
    db.execute("insert into shards values(?)", (shard,))
    return len(copies) + len(refused)


def fault_of(db, shard, mails):
    """Returns why SQLite does not take some mails, or None. Nothing is inserted."""
    try:
        insert(db, shard, mails, [])
    except UNFIT as fault:
        return str(fault)
    finally:
        db.rollback()
    return None


def parted(db, shard, mails):
    """Returns those of some mails that SQLite takes, and a row for each other, which is refused."""
    fault = fault_of(db, shard, mails)
    if fault is None:
        return mails, []
    if len(mails) == 1:
        return [], [(shard, *mails[0][0][:3], f"SQLite does not take this mail: {fault}")]
    half = len(mails) // 2
    (first, second), (unfit, more) = zip(parted(db, shard, mails[:half]), parted(db, shard, mails[half:]))
    return first + second, unfit + more


def insert_fit(db, shard, mails, refused):
    """Inserts what a slice gets of a shard in one transaction. A mail that SQLite does not take is refused, and the others
    are there. Returns the number of copies."""
    try:
        with db:
            return insert(db, shard, mails, refused)
    except UNFIT:
        mails, unfit = parted(db, shard, mails)
    with db:
        return insert(db, shard, mails, refused + unfit)


def insert_words(db):
    """Inserts the words of the mails that have none yet, and makes the indexes."""
    last, end = db.execute("select mail, (select coalesce(max(id), 0) from mails) from indexed").fetchone()
    while last < end:
        first, last = last, min(last + WORDED, end)
        with db:
            db.execute(f"insert into texts(rowid, subject, sender, recipients, body) select {WORDS} where id > ? and id <= ?", (first, last))
            db.execute("update indexed set mail = ?", (last,))
    db.executescript(INDEXES)


def opened(path):
    """Opens a slice, and creates its tables."""
    db = sqlite3.connect(path)
    db.execute(f"pragma user_version = {VERSION}")
    db.executescript(SCHEMA)
    with db:
        db.execute(BUFFER)
    return db


def loaded(path):
    """Returns the names of the shards of a slice."""
    with contextlib.closing(opened(path)) as db:
        return {name for name, in db.execute("select name from shards")}


def refused_in(path):
    """Returns how many mails of a slice were refused."""
    with contextlib.closing(sqlite3.connect(path)) as db:
        return db.execute("select count(*) from refused").fetchone()[0]


def load(path, stale, fresh):
    """Removes shards from a slice, and inserts others: names, each with the file of what the slice gets. Returns the number
    of copies that were inserted, and a line for each shard that could not be."""
    total, faults = 0, []
    with contextlib.closing(opened(path)) as db:
        if stale:
            insert_words(db)  # since those of the mails that are removed must be there
        for shard in stale:
            with db:
                remove(db, shard)
        for shard, name in fresh:
            with open(name, "rb") as file:
                mails, refused = marshal.loads(file.read())
            try:
                total += insert_fit(db, shard, mails, refused)
            except sqlite3.Error as fault:
                faults.append(f"{shard} is not loaded into {path}: {fault}; the next run tries it again")
    return total, faults


def load_words(path):
    """Inserts the words that a slice lacks."""
    with contextlib.closing(opened(path)) as db:
        insert_words(db)


def set_version(path, version):
    """Sets the version of a database."""
    with contextlib.closing(sqlite3.connect(path)) as db:
        db.execute(f"pragma user_version = {version}")


def overview(path):
    """Returns of a slice the numbers of mails, by month and by sender, and what its mails say of themselves, in order, as
    bytes of `marshal`."""
    links, mails, days, senders = {}, [], collections.Counter(), collections.Counter()
    with contextlib.closing(sqlite3.connect(path)) as db:
        for mail, one in db.execute("select mail, id from links order by mail, position"):
            links.setdefault(mail, []).append(one)
        for mail, one, date, sender, subject in db.execute("select id, message_id, date, sender, subject from mails"):
            if one is not None:
                mails.append((one, date, *threads.base_subject(subject or ""), tuple(links.get(mail, ()))))
            if date is not None:
                days[date // 86400] += 1
            senders[sender] += 1
        months = collections.Counter()
        for day, count in days.items():
            months[db.execute(MONTH, (day,)).fetchone()[0]] += count
    del months[None], senders[""]
    return marshal.dumps((dict(months), dict(senders), sorted(mails, key=threads.order_of)))


def load_threads(path, overviews):
    """Makes the threads and the numbers of all mails anew."""
    months, senders, mails = collections.Counter(), collections.Counter(), []
    for some in map(marshal.loads, overviews):
        months.update(some[0])
        senders.update(some[1])
        mails += map(threads.Sent._make, some[2])
    parents = threads.trees(mails)
    tops = threads.tops_of(parents)
    dates = {one.id: one.date for one in reversed(mails)}  # of mails with one id, which are in one slice, the first
    with contextlib.closing(sqlite3.connect(path, isolation_level=None)) as db:
        db.executescript(THREADS)
        db.executemany("insert into months values(?, ?)", months.items())
        db.executemany("insert into senders values(?, ?)", senders.most_common(SENDERS))
        rows = ((one, above, tops[one], dates.get(one)) for one, above in parents.items())
        db.executemany("insert into threads values(?, ?, ?, ?)", rows)
        for statement in THREADS_LOADED:
            db.execute(statement)


def load_all(given, named, paths, trees, pool, scratch):
    """Loads all slices in parallel. Returns the number of copies that were inserted, and a line for each shard that could
    not be."""
    there = list(map(loaded, paths))
    stale = [names - set(named) for names in there]
    fresh = [[name for name in named if name not in names] for names in there]
    wanted = sorted({name for names in fresh for name in names})
    if any(stale) or any(fresh):
        set_version(trees, 0)  # until they are made anew, also after an interrupted run
    files = [os.path.join(given.out, name) for name in wanted]
    dealt = dict(zip(wanted, pool.map(deal, files, wanted, [len(paths)] * len(wanted), [scratch] * len(wanted), [named[name] for name in wanted])))
    parts = [[(name, dealt[name][number]) for name in names] for number, names in enumerate(fresh)]
    loads = list(pool.map(load, paths, stale, parts))
    return sum(total for total, _ in loads), [fault for _, faults in loads for fault in faults]


def replace_slices(paths, fresh):
    """Replaces the slices of an older version."""
    for path, new in zip(paths, fresh):
        for end in ("-wal", "-shm"):
            with contextlib.suppress(FileNotFoundError):
                os.remove(path + end)
        os.replace(new, path)


def load_index(given, named, paths, pool, scratch):
    """Loads the shards, then their words, and makes the threads anew if something has changed. Returns the number of copies
    that were inserted, and a line for each shard that could not be."""
    trees = os.path.join(given.database, "threads.sqlite")
    is_older = any(os.path.exists(path) and version_of(path) != VERSION for path in paths)
    loaded_into = [f"{path}.new" for path in paths] if is_older else paths
    total, faults = load_all(given, named, loaded_into, trees, pool, scratch)
    is_changed = version_of(trees) != VERSION
    overviews = pool.map(overview, loaded_into if is_changed else ())
    words = pool.map(load_words, loaded_into)  # while the threads are made here
    if is_changed:
        load_threads(trees, overviews)
    collections.deque(words, maxlen=0)  # raises what a call has raised
    if is_older and not faults:
        replace_slices(paths, loaded_into)
    return total, faults


def prepare():
    """Leaves Ctrl-C to the process that waits for this one."""
    signal.signal(signal.SIGINT, signal.SIG_IGN)


def interruptible(given, named, paths):
    """Loads the index by several processes, which end with this one."""
    with tempfile.TemporaryDirectory(prefix=".load-", dir=given.database) as scratch:
        with concurrent.futures.ProcessPoolExecutor(initializer=prepare) as pool:
            try:
                return load_index(given, named, paths, pool, scratch)
            except KeyboardInterrupt:
                pool.shutdown(cancel_futures=True)  # waits for the shards that are being read
                raise


def main():
    """Loads the index."""
    parser = argparse.ArgumentParser(description=__doc__, formatter_class=argparse.RawDescriptionHelpFormatter)
    parser.add_argument("out", metavar="OUT")
    parser.add_argument("database", metavar="DATABASE")
    parser.add_argument("--slices", type=int, default=os.cpu_count(), help="the number of slices of a new database")
    given = parser.parse_args()
    begun = time.monotonic()
    gc.disable()  # here and in the processes of the pool: no cycles of objects are made
    try:
        with open(os.path.join(given.out, "MANIFEST"), encoding="utf-8") as manifest:
            named = {line["shard"]: {name: state for name, *state in line.get("files", ())} for line in map(json.loads, manifest) if "shard" in line}
    except FileNotFoundError:
        sys.exit(f"load_sqlite.py: {given.out} has no MANIFEST: run index_archive.py first")
    os.makedirs(given.database, exist_ok=True)
    paths = sorted(glob.glob(os.path.join(glob.escape(given.database), "[0-9]*.sqlite")))
    paths = paths or [os.path.join(given.database, f"{number:03}.sqlite") for number in range(max(1, given.slices))]
    try:
        total, faults = interruptible(given, named, paths)
    except (ValueError, OSError, sqlite3.Error) as fault:
        sys.exit(f"load_sqlite.py: {fault}")
    except KeyboardInterrupt:
        print("load_sqlite.py: interrupted; the next run goes on from here", file=sys.stderr)
        sys.exit(130)
    seconds, refused = time.monotonic() - begun, sum(map(refused_in, paths))
    print(f"{total} mails loaded in {seconds:.1f} s, {total / seconds:.0f} a second", file=sys.stderr)
    if refused:
        print(f"load_sqlite.py: {refused} of the mails were refused: the table `refused` and the pages name them", file=sys.stderr)
    for fault in faults:
        print(f"load_sqlite.py: {fault}", file=sys.stderr)
    sys.exit(1 if faults else 0)


if __name__ == "__main__":
    main()
