#!/usr/bin/env python3
"""Shows the mails that load_sqlite.py loaded in a browser: search, threads, mails with their files, and plots.

It only reads. It answers on this machine alone unless --host says otherwise, and only to requests for a host that it
answers on. Nothing of a mail is markup: texts are escaped, HTML is shown as its text, pages load nothing from elsewhere,
and files are downloads. It needs Flask and pygal (Debian: python3-flask, python3-pygal).
"""
import argparse
import contextlib
import json
import os
import re
import sqlite3
import subprocess
import sys
import tempfile
import unicodedata
import urllib.parse
from types import SimpleNamespace
from xml.etree import ElementTree

try:
    import flask
    import pygal
except ImportError as fault:  # so that --help needs neither
    flask = None
    LACKING = fault.name

import search
from program import rocktray

PAGE = 25
# the most refused mails that are listed
REFUSED = 1000
# the number of the latest mails that are counted beside a search
COUNTED = 200
# the most pages of a search, and the number of mails above which those with a word are not counted
PAGES = 400
MANY = 40_000
# a number that SQLite can have, in a route; no mail has a greater one
NUMBER = f"int(max={2**63 - 1})"
# the most seconds in which a file is read
SECONDS = 60
POLICY = "default-src 'none'; style-src 'self'; img-src 'self'; form-action 'self'; base-uri 'none'; frame-ancestors 'none'"
HEADERS = {
    "Content-Security-Policy": POLICY,
    "X-Content-Type-Options": "nosniff",
    "Referrer-Policy": "no-referrer",
    "Cross-Origin-Opener-Policy": "same-origin",
    "Cross-Origin-Resource-Policy": "same-origin",
}
FACETS = {
    "year": "strftime('%Y', date, 'unixepoch')",
    "sender": "sender",
    "list": "list_id",
    "type": "(select type from attachments where mail = id limit 1)",
}
MONTHS = "select month, mails from months order by month desc limit 240"
SENDERS = "select sender, mails from senders order by mails desc, sender limit 15"
MAIL = "select message_id, date, datetime(date, 'unixepoch') as time, sender, recipients, subject, list_id, body from mails where id = ?"

# mails with one id, which differ: all of them are in one slice
SAME_ID = "select id, datetime(date, 'unixepoch') as time, sender, subject from mails where message_id = ? order by id limit 50"


class Archive:
    """The databases of an archive, opened for each request."""

    def __init__(self, directory, program):
        self.directory, self.program = directory, program
        self.paths = search.slices_of(directory)

    @contextlib.contextmanager
    def slices(self):
        """Opens all slices, for reading alone."""
        with contextlib.ExitStack() as stack:
            yield [stack.enter_context(contextlib.closing(self.opened(path))) for path in self.paths]

    @staticmethod
    def opened(path):
        """Opens a database for reading alone."""
        db = search.opened(path)
        db.row_factory = sqlite3.Row
        return db

    def slice(self, number):
        """Opens a slice by its number."""
        if number >= len(self.paths):
            flask.abort(404)
        return contextlib.closing(self.opened(self.paths[number]))

    def numbers(self, query):
        """Returns the rows of a query over the numbers of mails."""
        with contextlib.closing(self.opened(os.path.join(self.directory, "threads.sqlite"))) as db:
            return [tuple(row) for row in db.execute(query)]

    def first_copy(self, number, mail):
        """Returns the bytes of the first copy of a mail."""
        with self.slice(number) as db:
            copy = db.execute('select file, start, "end", file_size, file_time from copies where mail = ? limit 1', (mail,)).fetchone()
        if copy is None:
            flask.abort(404)
        try:
            return search.bytes_of(dict(copy))
        except OSError as fault:
            flask.abort(410, f"The mail cannot be read: {fault.strerror}")


def shown(text):
    """Returns a text as a page shows it, whose lines may end in CR LF: U+FFFD for each character that is not seen."""
    return search.HIDDEN_IN_TEXT.sub("\ufffd", (text or "").replace("\r\n", "\n"))


def given_of(words):
    """Returns what a request searches for, as the arguments of search.py."""
    given = SimpleNamespace(query=words.get("q", "").strip(), after=None, before=None, to=words.get("to"), has=words.get("has"))
    given.list = words.get("list")
    given.sender = given.id = given.thread = given.hash = given.attachment = None
    year = words.get("year", "")
    if re.fullmatch(r"[0-9]{4}", year) and year != "0000" and year != "9999":
        given.after, given.before = (search.seconds(f"{int(year) + more:04}-01-01") for more in (0, 1))
    return given


def wheres_of(words):
    """Returns the conditions of a search."""
    wheres = list(search.conditions(given_of(words)))
    if words.get("sender"):
        wheres.append(("sender = ?", words["sender"]))
    if words.get("type"):
        wheres.append(search.with_file("type = ?", words["type"]))
    return wheres


def facets_of(slices, chosen):
    """Returns the most frequent years, senders, lists and types of files among the latest mails that were chosen in slices."""
    counts = {name: {} for name in FACETS}
    columns = ", ".join(f"{what} as {name}" for name, what in FACETS.items())
    query = f"select {columns} from mails where id in (select value from json_each(?))"
    for db, rows in zip(slices, chosen):
        for row in db.execute(query, (json.dumps([number for _, number in rows[: COUNTED // len(slices)]]),)):
            for name in FACETS:
                if row[name]:
                    counts[name][row[name]] = counts[name].get(row[name], 0) + 1
    return {name: sorted(of.items(), key=lambda it: (-it[1], it[0]))[:8] for name, of in counts.items()}


def tree(archive, message_id):
    """Returns the mails of a thread, each with its level, all that have one id, and ids that no mail has."""
    order = search.tree_of(archive.directory, message_id)
    ids, found = search.hexadecimal(one for one, _ in order), {}
    with archive.slices() as slices:
        for number, db in enumerate(slices):
            columns = "id, message_id, datetime(date, 'unixepoch') as time, sender, subject"
            for row in db.execute(f"select {columns} from mails where message_id in (select text_of(value) from json_each(?))", (ids,)):
                found.setdefault(row["message_id"], []).append({**row, "slice": number})
    return [{**mail, "level": min(level, 12)} for one, level in order for mail in found.get(one, [{"id": None, "message_id": one}])]


def bars(title, counts, is_horizontal=False):
    """Returns a plot as SVG."""
    chart = (pygal.HorizontalBar if is_horizontal else pygal.Bar)(
        js=[], title=title, show_legend=False, x_label_rotation=0 if is_horizontal else 60, disable_xml_declaration=True, height=420,
        style=pygal.style.Style(background="transparent", plot_background="transparent", foreground="#808080", foreground_strong="#808080",
                                foreground_subtle="#808080", colors=("#3b7dd8",)),
    )
    chart.x_labels = [label for label, _ in counts]
    if not is_horizontal:
        chart.x_labels_major_count, chart.show_minor_x_labels = 12, False
    chart.add(None, [count for _, count in counts])
    return flask.Response(without_scripts(chart.render()), mimetype="image/svg+xml")


def without_scripts(svg):
    """Returns an image of pygal without its scripts, which only serve tooltips."""
    top = ElementTree.fromstring(svg)
    for element in list(top.iter()):
        for child in list(element):
            if child.tag.endswith("}script"):
                element.remove(child)
    return ElementTree.tostring(top)


def in_ascii(name):
    """Returns the name of a file in ASCII: letters without their accents, and `_` for any other character."""
    plain = "".join(letter for letter in unicodedata.normalize("NFKD", name) if not unicodedata.combining(letter))
    return name if name.isascii() else re.sub(r'[^ !#-.0-[\]-~]', "_", plain)


def download(raw, name):
    """Returns bytes as a file to be saved, whatever they are. Its name has `_` for each character that is not seen."""
    name = search.HIDDEN.sub("_", name)
    response = flask.Response(raw, mimetype="application/octet-stream")
    names = {"filename": in_ascii(name)}
    if names["filename"] != name:  # some versions of Werkzeug put any name into the header, which must be in Latin-1
        names["filename*"] = f"UTF-8''{urllib.parse.quote(name, safe='')}"
    response.headers.set("Content-Disposition", "attachment", **names)
    return response


def extracted(archive, raw, path):
    """Returns the name and the bytes of a file of a mail, as rocktray extract saves it."""
    with tempfile.TemporaryDirectory() as into:
        command = [archive.program, "extract", "--mail", "--into", into, "--only", path, "-"]
        try:
            subprocess.run(command, input=raw, stdout=subprocess.DEVNULL, check=False, timeout=SECONDS)
        except subprocess.TimeoutExpired:
            flask.abort(503, f"The file is not read within {SECONDS} seconds.")
        for name in os.listdir(into):
            with open(os.path.join(into, name), "rb") as file:
                return name, file.read()
    flask.abort(404)


def create_app(directory, program, hosts=None):
    """Makes the application over a database. `hosts` are the hosts that requests may name; any if left out."""
    app = flask.Flask(__name__)
    archive = Archive(directory, program)
    app.jinja_env.filters["shown"] = shown
    app.jinja_env.globals["link"] = lambda words, **more: flask.url_for("index", **{key: it for key, it in {**words, "page": None, **more}.items() if it})

    @app.before_request
    def check_host():
        if hosts is not None and flask.request.host not in hosts:
            flask.abort(403)

    @app.after_request
    def add_headers(response):
        response.headers.update(HEADERS)
        return response

    @app.errorhandler(400)
    @app.errorhandler(403)
    @app.errorhandler(404)
    @app.errorhandler(410)
    @app.errorhandler(503)
    def fault(error):
        return flask.render_template("fault.html", error=error), error.code

    @app.get("/")
    def index():
        words = {key: flask.request.args[key] for key in ("q", "to", "has", "year", "sender", "list", "type") if flask.request.args.get(key)}
        page = max(1, min(flask.request.args.get("page", 1, type=int), PAGES))
        wheres = wheres_of(words)
        with archive.slices() as slices:
            try:
                chosen, total, is_whole = search.latest(slices, wheres, max(page * PAGE, COUNTED // len(slices)), -(-MANY // len(slices)))
                found, facets = search.mails_of(slices, chosen, (page - 1) * PAGE, page * PAGE), facets_of(slices, chosen)
            except sqlite3.OperationalError:
                return flask.render_template("index.html", words=words, wrong=True, mails=[], total=0, is_whole=True, facets={}, page=1, pages=1)
            mails = [{**mail, "files": json.loads(mail["files"]), "slice": slices.index(db), "id": number} for mail, db, number in found]
        pages = min(-(-total // PAGE), PAGES)
        return flask.render_template("index.html", words=words, mails=mails, total=total, is_whole=is_whole, facets=facets, counted=COUNTED, page=page, pages=pages)

    @app.get(f"/mail/<int:number>/<{NUMBER}:mail>")
    def mail(number, mail):
        with archive.slice(number) as db:
            row = db.execute(MAIL, (mail,)).fetchone()
            if row is None:
                flask.abort(404)
            files = db.execute("select number, path, name, type, size from attachments where mail = ? order by number", (mail,)).fetchall()
            copies = db.execute('select file, start, "end", flags from copies where mail = ? order by rowid limit 50', (mail,)).fetchall()
            same = db.execute(SAME_ID, (row["message_id"],)).fetchall()
            count = db.execute("select count(*) from mails where message_id = ?", (row["message_id"],)).fetchone()[0]
        return flask.render_template("mail.html", mail=row, files=files, copies=copies, same=same, count=count, slice=number, id=mail)

    @app.get(f"/raw/<int:number>/<{NUMBER}:mail>")
    def raw(number, mail):
        return download(archive.first_copy(number, mail), "message.eml")

    @app.get(f"/file/<int:number>/<{NUMBER}:mail>/<{NUMBER}:file>")
    def file(number, mail, file):
        with archive.slice(number) as db:
            row = db.execute("select path from attachments where mail = ? and number = ?", (mail, file)).fetchone()
        if row is None:
            flask.abort(404)
        name, content = extracted(archive, archive.first_copy(number, mail), row["path"])
        return download(content, name)

    @app.get("/thread")
    def thread():
        mails = tree(archive, flask.request.args.get("id", ""))
        if not mails:
            flask.abort(404)
        return flask.render_template("thread.html", mails=mails)

    @app.get("/refused")
    def refused():
        with archive.slices() as slices:
            rows = [tuple(row) for db in slices for row in db.execute('select file, start, "end", error from refused')]
        return flask.render_template("refused.html", rows=sorted(rows)[:REFUSED], total=len(rows))

    @app.get("/favicon.ico")
    def icon():
        return "", 204

    @app.get("/plots")
    def plots():
        return flask.render_template("plots.html", months=archive.numbers(MONTHS), senders=archive.numbers(SENDERS))

    @app.get("/plots/months.svg")
    def months():
        return bars("Mails per month", archive.numbers(MONTHS)[::-1])

    @app.get("/plots/senders.svg")
    def senders():
        counts = archive.numbers(SENDERS)
        return bars("Most frequent senders", [(shown(sender)[:40], count) for sender, count in counts[::-1]], is_horizontal=True)

    return app


def hosts_of(host, port):
    """Returns the hosts that requests to this machine may name. The port 80 is left out by browsers."""
    names = {"127.0.0.1", "localhost", "[::1]", host}
    return {f"{name}:{port}" for name in names} | (names if port == 80 else set())


def main():
    """Serves the pages until it is interrupted."""
    parser = argparse.ArgumentParser(description=__doc__, formatter_class=argparse.RawDescriptionHelpFormatter)
    parser.add_argument("database", metavar="DATABASE")
    parser.add_argument("--host", default="127.0.0.1", help="the address to answer on; 127.0.0.1 by default, which is this machine alone")
    parser.add_argument("--port", type=int, default=8025)
    parser.add_argument("--program", metavar="ROCKTRAY", help="by default the one that is built here, in a release that is unpacked here, or installed")
    given = parser.parse_args()
    if flask is None:
        print(f"web.py: this Python has no {LACKING}: on Debian install python3-flask and python3-pygal, and run it by /usr/bin/python3", file=sys.stderr)
        sys.exit(2)
    hosts = hosts_of(given.host, given.port)
    if given.host not in ("127.0.0.1", "localhost", "::1"):
        print("web.py: anyone who reaches this port can read the archive; there are no passwords", file=sys.stderr)
        hosts = None
    program = rocktray(given.program)
    create_app(given.database, program, hosts).run(given.host, given.port, threaded=True)


if __name__ == "__main__":
    main()
