"""Reading takes time in proportion to the size of a mail, on mails that are made so that rereading shows."""

import resource
import subprocess

import pytest

from support import program

from made_mails import KINDS as MADE

KINDS = (
    "openings", "broken-words", "semicolons", "quotes", "escaped-quotes", "keys", "starred-keys", "continuations",
    "starred-continuations", "growing-stars", "long-indexes", "percent-escapes", "delimiters", "line-feeds", "dashes",
    "close-delimiters", "levels", "empty-parts", "prefixes", "empty-boundary", "boundary-of-lines",
)


# what HTML consists of whose text is read
PIECES = (
    "<", "&", "<!--", "<!-->", "<!", "&#", "&#0", "&CounterClockwiseContourIntegra", "</", "</a", "<a href=", "<a href='", "<a =",
    "<a href=x>", "<script", "<script>", "<script></", "<svg><svg>", "<svg/>", "<td>", "<br>", "<pre> \n", " ", "a ", "<img alt='a&'>",
)


def processor_time(command, path, turns):
    """The least processor time in seconds of some runs of a command, whatever else the machine does."""
    spent = []
    for _ in range(turns):
        before = resource.getrusage(resource.RUSAGE_CHILDREN)
        with open(path, "rb") as mail:
            subprocess.run(command, stdin=mail, stdout=subprocess.DEVNULL, check=True, timeout=300)
        after = resource.getrusage(resource.RUSAGE_CHILDREN)
        spent.append(after.ru_utime + after.ru_stime - before.ru_utime - before.ru_stime)
    return min(spent)


@pytest.mark.parametrize("kind", KINDS)
def test_growth(kind, tmp_path):
    """Eight times the size takes at most 24 times the processor time."""
    times = []
    for scale, turns in ((1, 5), (8, 3)):
        path = tmp_path / str(scale)
        path.write_bytes(MADE[kind][1](scale))
        times.append(processor_time([program("mail_show")], path, turns))
    assert times[1] <= 24 * times[0]


@pytest.mark.parametrize("piece", PIECES)
def test_growth_of_html(piece, tmp_path):
    """The same of HTML whose text is read, with the targets of links."""
    times = []
    for scale, turns in ((1, 5), (8, 3)):
        path = tmp_path / str(scale)
        path.write_bytes(b"Content-Type: text/html\n\n" + piece.encode() * (scale * 200_000 // len(piece)))
        times.append(processor_time([program("rocktray"), "show"], path, turns))
    assert times[1] <= 24 * times[0]
