"""The threads of examples/archive: laws on made mails, and threads whose trees are known."""

import os
import random
import re
import sys
import time

import pytest

from support import TOP

sys.path.insert(0, os.path.join(TOP, "examples", "archive"))

from threads import Sent, base_subject, tops_of, trees  # noqa: E402

pytestmark = pytest.mark.quick
SUBJECTS = ("a", "Re: a", "b", "Re: b", "Fwd: [list] a", "")


def sent(one, date, subject, references):
    """What a mail with this subject says of itself."""
    return Sent(one, date, *base_subject(subject), references)


def made_mails(source):
    """A few mails that refer to one another in any way, also in circles, some twice."""
    ids = [f"{number}@x" for number in range(source.randint(1, 8))]
    mails = []
    for _ in range(source.randint(1, 9)):
        references = tuple(source.choices([*ids, "lost@x", "gone@x"], k=source.randint(0, 4)))
        mails.append(sent(source.choice(ids), source.choice([None, 1, 2, 3]), source.choice(SUBJECTS), references))
    return mails


def test_laws(pytestconfig):
    """The threads are a forest with each mail once, whatever the order of the mails."""
    source = random.Random(pytestconfig.getoption("--seed"))
    for _ in range(5000):
        mails = made_mails(source)
        parents = trees(mails)
        assert {mail.id for mail in mails} <= parents.keys()
        tops = tops_of(parents)
        for one in parents:
            way = [one]
            while parents[way[-1]] is not None:
                way.append(parents[way[-1]])
                assert len(way) <= len(parents), f"an id is above itself: {mails}"
            assert tops[one] == way[-1]
        source.shuffle(mails)
        assert trees(mails) == parents, f"the order of the mails counts: {mails}"


@pytest.mark.parametrize(
    "mails, wanted",
    [
        pytest.param([("1", 1, "a", ()), ("2", 2, "Re: a", ("1",)), ("3", 3, "Re: a", ("1", "2"))], {"1": None, "2": "1", "3": "2"}, id="replies"),
        pytest.param([("3", 3, "Re: a", ("1", "2")), ("1", 1, "a", ())], {"1": None, "3": "1"}, id="a mail that is missing in the middle"),
        pytest.param([("2", 2, "Re: a", ("1",)), ("3", 3, "Re: a", ("1",))], {"1": None, "2": "1", "3": "1"}, id="a first mail that is missing"),
        pytest.param([("2", 2, "Re: a", ("1",))], {"2": None}, id="one answer to a mail that is missing"),
        pytest.param([("1", 1, "a", ()), ("2", 2, "Re: A", ())], {"1": None, "2": "1"}, id="a reply without references"),
        pytest.param([("1", 1, "a", ()), ("2", 2, "a", ())], {"1": None, "2": None}, id="mails with one subject"),
        pytest.param([("1", 1, "", ()), ("2", 2, "Re: ", ())], {"1": None, "2": None}, id="no subject"),
        pytest.param([("1", 1, "a", ("2",)), ("2", 2, "a", ("1",))], {"1": None, "2": "1"}, id="a circle"),
        pytest.param([("1", 1, "a", ("1",))], {"1": None}, id="a mail that refers to itself"),
        pytest.param([("1", 1, "a", ()), ("2", 2, "b", ()), ("3", 3, "c", ("1", "2"))], {"1": None, "2": "1", "3": "2"}, id="what a third mail says"),
    ],
)
def test_trees(mails, wanted):
    """Trees after the rules that jwz.org/doc/threading.html has for these cases."""
    assert trees([sent(*mail) for mail in mails]) == wanted


@pytest.mark.parametrize(
    "subject, wanted",
    [("Re: a", ("a", True)), ("RE[2]: Fwd:  A  b", ("a b", True)), ("[list] a", ("a", False)), ("AW: [l] Re: a", ("a", True)), ("Regards: a", ("regards: a", False)), ("a", ("a", False))],
)
def test_subjects(subject, wanted):
    """Subjects without `Re:` and the like."""
    assert base_subject(subject) == wanted


LONG = 400_000


@pytest.mark.parametrize(
    "subject, wanted",
    [
        pytest.param("Re" + " " * LONG + "x", ("re x", False), id="spaces, and no colon"),
        pytest.param("Re" + " " * LONG + "[1]" + " " * LONG + "x", ("re [1] x", False), id="spaces around a count, and no colon"),
        pytest.param("Re" + " " * LONG + ": a", ("a", True), id="spaces before a colon"),
        pytest.param("Re[" + "1" * LONG + "a", ("re[" + "1" * LONG + "a", False), id="a count without an end"),
        pytest.param("Re^" + "1" * LONG + "a", ("re^" + "1" * LONG + "a", False), id="a count, and no colon"),
        pytest.param(" " * LONG + "a", ("a", False), id="spaces before a subject"),
        pytest.param("[]" * (LONG // 2) + "a", ("a", False), id="many names of lists"),
        pytest.param("Re:" * (LONG // 3) + "a", ("a", True), id="many prefixes"),
        pytest.param("[" * LONG, ("[" * LONG, False), id="brackets without an end"),
        pytest.param("[ ] " * (LONG // 4) + "Re" + " " * LONG, ("re", False), id="names of lists before spaces"),
    ],
)
def test_long_subjects(subject, wanted):
    """Subjects of 400 kB and more, for which a search that goes back over whitespace or copies the rest takes minutes."""
    begun = time.process_time()
    assert base_subject(subject) == wanted
    assert time.process_time() - begun < 5


def test_subjects_of_pieces(pytestconfig):
    """A subject of any pieces is read as the definition by one prefix after another says."""
    prefix = re.compile(r"\s*((re|aw|sv|vs|antw|odp|ref|rv|res|r|fwd?|wg|tr|i)\s*(\[\d+\]|\(\d+\)|\^\d+)?\s*[:\uff1a]|\[[^]]*\])\s*", re.IGNORECASE)
    pieces = ("re", "Re", "R", "fw", "fwd", "res", "ref", "i", " ", "\t", "\u3000", "\u0130", ":", "\uff1a", "[", "]", "[2]", "(3)", "^4", "(", "a", "1", "[l x]")
    source = random.Random(pytestconfig.getoption("--seed"))
    for _ in range(20_000):
        subject = rest = "".join(source.choices(pieces, k=source.randrange(12)))
        is_reply = False
        while found := prefix.match(rest):
            is_reply, rest = is_reply or not found[1].startswith("["), rest[found.end() :]
        assert base_subject(subject) == (" ".join(rest.split()).casefold(), is_reply), subject


def test_long_threads():
    """A thread of 100,000 mails, and a mail with 100,000 references, are read in linear time."""
    count = 100_000
    chain = [sent(f"{number}", number, "a", (f"{number - 1}",) if number else ()) for number in range(count)]
    assert tops_of(trees(chain)) == dict.fromkeys((mail.id for mail in chain), "0")
    assert trees([sent("x", 1, "a", tuple(map(str, range(count))))]) == {"x": None}
