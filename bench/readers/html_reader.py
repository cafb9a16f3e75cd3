#!/usr/bin/env python3
"""Times reading the text of HTML by Python's html.parser with a collector of text, or by `lynx -dump`: `READER ROUNDS`.

The HTML is on standard input, in UTF-8. A run of lynx on an empty document, its start, is taken off its times.
"""
import argparse
import html.parser
import os
import statistics
import subprocess
import sys
import tempfile
import time

HIDDEN = {"script", "style", "template", "noscript", "svg", "math", "iframe", "noembed", "noframes"}
SEPARATE = set(
    "td th tr br p div table tbody thead tfoot center li ul ol h1 h2 h3 h4 h5 h6 hr blockquote pre address article aside body "
    "caption dd details dialog dir dl dt fieldset figcaption figure footer form head header hgroup html legend listing main "
    "menu nav optgroup option search section select summary textarea title xmp".split()
)
W3M = "w3m -dump -T text/html -I UTF-8 -O UTF-8 -cols 10000".split()
LYNX = "lynx -cfg=lynx.cfg -dump -nolist -width=1000 -assume_charset=utf-8 -display_charset=utf-8".split()
# without the maps of endings of file names, which lynx searches for each file, it reads fifty times as fast
LYNX_SETTINGS = "INCLUDE:/etc/lynx/lynx.cfg\nGLOBAL_EXTENSION_MAP:/dev/null\nPERSONAL_EXTENSION_MAP:/dev/null\n"


class Collector(html.parser.HTMLParser):
    """Collects the text that html.parser reads."""

    def __init__(self):
        super().__init__()
        self.pieces, self.hidden = [], []

    def handle_starttag(self, tag, attrs):
        """An element that separates text, hides it, or is an image."""
        self.pieces.append("\n" if tag in SEPARATE else "")
        if tag in HIDDEN:
            self.hidden.append(tag)
        if tag == "img" and not self.hidden:
            self.pieces.append(f"[{dict(reversed(attrs)).get('alt') or ''}]")

    def handle_endtag(self, tag):
        """The end of an element."""
        self.pieces.append("\n" if tag in SEPARATE else "")
        while tag in self.hidden:
            self.hidden.pop()

    def handle_data(self, data):
        """Text."""
        self.pieces.append("" if self.hidden else data)


def by_parser(text):
    """The text by html.parser, or None if it refuses the document."""
    reader = Collector()
    try:
        reader.feed(text)
        reader.close()
    except AssertionError:
        return None
    return "".join(reader.pieces)


def took(call, *arguments):
    """The nanoseconds of a call."""
    start = time.perf_counter_ns()
    call(*arguments)
    return time.perf_counter_ns() - start


def dumped(directory, names):
    """Reads files by one run of lynx."""
    subprocess.run([*LYNX, *names], cwd=directory, stdout=subprocess.DEVNULL, check=True)


def times_of_lynx(data, rounds):
    """The times of lynx, without its start. A run reads a short document as often as makes a megabyte."""
    copies = [f"{number}.html" for number in range(max(1, 1_000_000 // max(len(data), 1)))]
    with tempfile.TemporaryDirectory() as directory:
        for name, content in (("none.html", b""), ("lynx.cfg", LYNX_SETTINGS.encode()), *((name, data) for name in copies)):
            with open(os.path.join(directory, name), "wb") as file:
                file.write(content)
        start = min(took(dumped, directory, ["none.html"]) for _ in range(5))
        return [(took(dumped, directory, copies) - start) / len(copies) for _ in range(rounds)]


def main():
    """Prints the times."""
    parser = argparse.ArgumentParser(description=__doc__, formatter_class=argparse.RawDescriptionHelpFormatter)
    parser.add_argument("reader", metavar="READER", choices=["html.parser", "lynx"], help="html.parser or lynx")
    parser.add_argument("rounds", metavar="ROUNDS", type=int, help="how many rounds are timed")
    asked = parser.parse_args()
    data = sys.stdin.buffer.read()
    if asked.reader == "lynx":
        times = times_of_lynx(data, asked.rounds)
    else:
        text = data.decode("utf-8", "replace")
        times = [took(by_parser, text) for _ in range(asked.rounds)]
    size = max(len(data), 1)
    print(f"{asked.reader}: least {min(times) / size:.3f}, median {statistics.median(times) / size:.3f} ns a byte")


if __name__ == "__main__":
    main()
