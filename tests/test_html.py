"""The text of HTML: the table of references beside Python's html.entities, and the words of HTML beside other readers.

The words are those of the HTML in samples/, of a made newsletter, of mails given by --real, and of mutations of all. The
readers are w3m, lynx and Python's html.parser with a collector of text. Each gets the same document: what they read
otherwise by a cause that DIFFERENCES.md names is taken out of it, such as images without an alternative text.
"""

import base64
import collections
import concurrent.futures
import html.entities
import json
import re
import shutil

import pytest

from support import FROM, SAMPLES, TOP, command, missing, run

from real_mail import html_parts
from readers.html_reader import LYNX, LYNX_SETTINGS, W3M, by_parser
from texts import html_of

SOURCE = TOP / "crates" / "mail_html" / "src" / "named.rt"
# what a mutation puts into a document
PIECES = [
    "<", ">", "&", "</", "<!--", "-->", "<script>", "</script>", "<style>", "</style>", "<b>", "</b>", "<p>", "<br>",
    "<td>", "</td>", "<tr>", "<li>", "<div>", "</div>", "&amp;", "&lt;", "&nbsp;", "&eacute;", "&#65;", "&#x42;", "&#150;",
    "&#0;", "<pre>", "</pre>", "<img alt='q r'>", "<!DOCTYPE html>", "<?x?>", '"', "'", "=", "/>", " ", "\n", "\t", "word",
    "<a href='u'>", "</a>",
]
MUTATIONS, BATCH, MARK = 20_000, 500, "zqseparatorqz"


def names():
    """The names of each group and their texts, in order."""
    for group in re.findall(r"static \w+: \[[^=]*= \[\n(.*?)\n\];", SOURCE.read_text(), re.DOTALL):
        rows = re.findall(r'\("([^"]+)", "([^"]+)"\)', group)
        yield [(name, re.sub(r"\\u\{(\w+)\}", lambda it: chr(int(it[1], 16)), text)) for name, text in rows]


@pytest.mark.quick
def test_references():
    """The table has each name of the standard once, with its text, in a group by its first letter."""
    ended = run([TOP / "tools" / "make_references.py", "--check"])
    assert (ended.returncode, ended.stdout) == (0, b"1 passed, 0 failed\n"), ended
    assert dict(row for group in names() for row in group) == html.entities.html5
    assert sum(map(len, names())) == len(html.entities.html5) == 2231
    assert all(len({name[0] for name, _ in group}) == 1 for group in names())


@pytest.mark.quick
def test_order():
    """The first name of a group that a text begins with is the longest: no name is before one that begins with it."""
    for group in names():
        for place, (name, _) in enumerate(group):
            assert not [later for later, _ in group[place + 1:] if later.startswith(name)], name


def by_browser(browser, texts, directory):
    """The texts by one run of w3m or lynx, with a mark after each."""
    directory.mkdir()
    (directory / "lynx.cfg").write_text(LYNX_SETTINGS)
    files = []
    for number, text in enumerate(texts):
        for name, content in ((f"{number}.html", text), (f"mark{number}.html", f"<p>{MARK}</p>")):
            (directory / name).write_bytes(content.encode())
            files.append(name)
    found = run([*browser, *files], cwd=directory).stdout.decode("utf-8", "replace").split(MARK)[:-1]
    assert len(found) == len(texts), (browser[0], len(found))
    return found


def by_others(texts, directory):
    """The texts of each document by w3m, lynx and html.parser."""
    batches = [texts[at : at + BATCH] for at in range(0, len(texts), BATCH)]
    with concurrent.futures.ThreadPoolExecutor(4) as pool:
        runs = [[pool.submit(by_browser, browser, batch, directory / f"{browser[0]}{number}") for number, batch in enumerate(batches)]
                for browser in (W3M, LYNX)]
        found = [[text for one in of for text in one.result()] for of in runs]
    return zip(*found, map(by_parser, texts), strict=True)


def by_us(texts):
    """The texts by rocktray show, as mails of a mailbox: the lines after two spaces."""
    head = FROM + b"Content-Type: text/html; charset=utf-8\nContent-Transfer-Encoding: base64\n\n"
    mails = b"".join(head + base64.encodebytes(text.encode()) + b"\n" for text in texts)
    ended = run([*command("show"), "--mbox"], mails)
    assert (ended.returncode, ended.stderr) == (0, b"")
    views = re.split(r"(?m)^-- mail \d+ --\n", ended.stdout.decode())[1:]
    return ["\n".join(line for line in view.split("\n") if line.startswith("  ")) for view in views]


def test_json():
    """The texts of HTML in the JSON of the samples have the words of html.parser, and no others."""
    for path in SAMPLES:
        ended = run([*command("json"), "--html-text", "--mail", path])
        found = [part["html_text"] for part in json.loads(ended.stdout)["parts"] if part["type"] == "text/html"]
        assert [words(text) for text in found] == [words(by_parser(text)) for text in html_parts(path.read_bytes())], path


def words(text):
    """How often a text has each word."""
    return collections.Counter(re.findall(r"\w+", text))


def prepared(text):
    """A document without what the other readers read otherwise: DIFFERENCES.md has the causes."""
    text = re.sub(r"(?i)<img\b(?![^>]*\balt\s*=)", "<img alt='' ", text)
    text = re.sub(r"(?i)<(?:a|input|ol|button|textarea|select|isindex|embed|object|applet|frame)\b", "<u", text)
    text = re.sub(r"<!--(?:>|->)", "<!-- -->", text).replace("--!>", "-->").replace("\0", "")
    return text.encode("utf-8", "replace").decode()


def compare(texts, others):
    """How many words two of the other readers agree on, how many of them we have, and words that only we have."""
    agreed, there, alone = 0, 0, []
    for text, ours, found in zip(texts, by_us(texts), others, strict=True):
        ours, found = words(ours), [words(other) for other in found if other is not None]
        if len(found) < 2:
            continue
        for word in set().union(*found):
            count = sorted(other[word] for other in found)[-2]
            agreed += count
            there += min(count, ours[word])
        alone += [(word, text) for word in ours if not any(other[word] for other in found)]
    return agreed, there, alone


@pytest.fixture(scope="module")
def documents(request):
    """HTML documents: those of the samples, a made newsletter, and those of the mails given by --real."""
    for name in ("w3m", "lynx"):
        shutil.which(name) or missing(f"{name} is missing: run tools/install_needs.sh")
    paths = [*SAMPLES, *(path for given in request.config.getoption("--real") for path in TOP.joinpath(given).rglob("*"))]
    found = [text for path in paths if path.is_file() for text in html_parts(path.read_bytes())]
    found.append(html_of(10_000).decode())
    return [text for text in dict.fromkeys(map(prepared, found)) if text.strip()]


def mutated(chance, text):
    """A document with one to four changes, which leave no tag open at its end."""
    for _ in range(chance.randrange(1, 5)):
        at, end = sorted(chance.randrange(len(text) + 1) for _ in range(2))
        kind = chance.randrange(4)
        if kind == 0:
            text = text[:at] + chance.choice(PIECES) + text[at:]
        elif kind == 1:
            text = text[:at] + text[at + chance.randrange(1, 6):]
        elif kind == 2:
            text = text[:at] + text[end : end + 40] + text[at:]
        else:
            text = text[:at] + chance.choice("<>&\"'/=-! ;#x1a\n") + text[at + 1:]
    return prepared(text + "'\">")


def test_words(documents, tmp_path):
    """The words of real HTML: at least 99.5 % of those that two other readers agree on, and none that no other has. Each
    document is read by w3m, lynx and html.parser.
    """
    agreed, there, alone = compare(documents, by_others(documents, tmp_path))
    assert alone == []
    assert agreed and there >= 0.995 * agreed, (there, agreed)


def test_words_of_mutations(documents, chance, tmp_path):
    """The same of 20,000 mutations, all of which w3m, lynx and html.parser read. One word in 10,000 may be ours alone: each
    other reader has its own way with broken tags.
    """
    texts = []
    while len(texts) < MUTATIONS:
        text = chance.choice(documents)
        at = chance.randrange(max(1, len(text) - 600))
        texts.append(mutated(chance, text[at : at + 600]))
    agreed, there, alone = compare(texts, by_others(texts, tmp_path))
    assert there >= 0.995 * agreed, (there, agreed)
    assert 10_000 * len(alone) <= agreed, alone
