"""The pages of examples/archive/web.py over a small archive with hostile mails, by requests and in a browser.

No markup, script or address of a mail may reach a page: texts are escaped, pages load nothing from elsewhere, and files are
downloads. The browser is Chromium without a window; screenshots go to the directory that --basetemp names.
"""

import base64
import contextlib
import html
import importlib.util
import json
import os
import re
import signal
import socket
import subprocess
import sys
import threading
import time
import urllib.error
import urllib.parse
import urllib.request
from email.message import EmailMessage
from xml.etree import ElementTree

import pytest

from support import FROM, TOP, missing, program

pytestmark = pytest.mark.xdist_group("web")
EXAMPLES = os.path.join(TOP, "examples", "archive")
sys.path.insert(0, EXAMPLES)
EVIL = "<script>alert(1)</script><img src=http://198.51.100.7/x onerror=alert(2)>"
WORD = f"=?utf-8?B?{base64.b64encode(EVIL.encode()).decode()}?="
MAILS = (
    "From: Ana Lima <ana@example.net>\nTo: Bo <bo@example.net>\nSubject: Zebra crossing\nMessage-ID: <1@small>\nList-Id: <l.example>\n"
    "Date: Mon, 3 Mar 2025 10:00:00 +0000\nContent-Type: multipart/mixed; boundary=b\n\n"
    "--b\n\nThe quagga is extinct.\n--b\nContent-Type: application/pdf\nContent-Disposition: attachment; filename=quagga.pdf\n\n%PDF-x\n--b--\n",
    "From: Bo <bo@example.net>\nSubject: Re: Zebra crossing\nMessage-ID: <2@small>\nIn-Reply-To: <1@small>\n"
    "Date: Tue, 4 Mar 2025 10:00:00 +0000\nContent-Type: text/html\n\n<style>dodo</style><p title='>'>So &lt;is&gt; the <b>aur</b>ochs.</p>\n",
    f"From: {WORD} <evil@example.net>\nTo: \"{EVIL}\" <x@example.net>\nSubject: {WORD}\nMessage-ID: <<script>alert(3)</script>@x>\nList-Id: {EVIL}\n"
    "Date: Wed, 5 Mar 2025 10:00:00 +0000\nContent-Type: multipart/mixed; boundary=b\n\n"
    f"--b\n\n{EVIL}\n\x1b[31m red\n--b\nContent-Type: text/html\n\n<p>{EVIL}</p>\n"
    f"--b\nContent-Type: text/html\nContent-Disposition: attachment; filename=\"../{EVIL.replace('/', '')}.html\"\n\n{EVIL}\n--b--\n",
)


def need_flask():
    """Ends a test without the modules that pages need."""
    if not all(map(importlib.util.find_spec, ("flask", "pygal"))):
        missing("Flask or pygal is missing (Debian: python3-flask, python3-pygal)")


@pytest.fixture(scope="module")
def database(tmp_path_factory):
    """The database of the archive."""
    directory = tmp_path_factory.mktemp("web")
    (directory / "mails.mbox").write_bytes(b"".join(FROM + mail.encode() + b"\n" for mail in MAILS))
    (directory / "index").mkdir()
    lines = subprocess.run([program("rocktray"), "json", "--html-text", str(directory / "mails.mbox")], stdout=subprocess.PIPE, check=True).stdout
    refused = {"schema": json.loads(lines.partition(b"\n")[0])["schema"], "file": f"{EVIL}.mbox", "start": 0, "end": 9, "error": "Header cannot start"}
    (directory / "index/a.jsonl").write_bytes(lines + json.dumps(refused).encode() + b"\n")
    (directory / "index/MANIFEST").write_bytes(b'{"shard": "a.jsonl"}\n')
    subprocess.run([sys.executable, os.path.join(EXAMPLES, "load_sqlite.py"), "index", "db"], cwd=directory, stderr=subprocess.PIPE, check=True)
    return directory / "db"


@pytest.fixture(scope="module")
def address(database):
    """The address at which the pages are served."""
    need_flask()
    with socket.create_server(("127.0.0.1", 0)) as free:
        port = free.getsockname()[1]
    command = [sys.executable, os.path.join(EXAMPLES, "web.py"), str(database), "--port", str(port), "--program", program("rocktray")]
    with subprocess.Popen(command, stdout=subprocess.DEVNULL, stderr=subprocess.DEVNULL) as server:
        for _ in range(200):
            with contextlib.suppress(OSError), socket.create_connection(("127.0.0.1", port), 1):
                break
            time.sleep(0.05)
        yield f"http://127.0.0.1:{port}"
        server.send_signal(signal.SIGTERM)


def made(directory, program, *mails):
    """A client of web.py, whose pages show mails, each a dictionary of members of its line beside a text of one word; the
    files are what the lines of `program`, a script of sh, put into the directory "$4"."""
    need_flask()
    (directory / "box").write_bytes(b"Subject: Zebra\n\nword\n")
    size = (directory / "box").stat().st_size
    part = {"path": "1", "type": "text/plain", "extracted": False, "file_name": None, "text": "word", "text_files": [], "headers": []}
    line = {"schema": 6, "file": str(directory / "box"), "number": None, "start": 0, "end": size, "subject": "Zebra", "date": 1_000_000_000}
    line.update({name: [] for name in ("from", "to", "cc", "bcc", "message_id", "in_reply_to", "references", "forwarded")})
    lines = [{**line, **mail, "parts": [{**part, **one} for one in mail.get("parts", [{}])]} for mail in mails]
    (directory / "out").mkdir()
    (directory / "out" / "a.jsonl").write_text("".join(json.dumps(one) + "\n" for one in lines))
    state = [str(directory / "box"), size, (directory / "box").stat().st_mtime_ns]
    (directory / "out" / "MANIFEST").write_text(json.dumps({"shard": "a.jsonl", "files": [state]}) + "\n")
    loader = [sys.executable, os.path.join(EXAMPLES, "load_sqlite.py"), "out", "db", "--slices", "1"]
    subprocess.run(loader, cwd=directory, stderr=subprocess.PIPE, check=True)
    (directory / "rocktray").write_text(f"#!/bin/sh\n{program}\n")
    (directory / "rocktray").chmod(0o755)
    app = importlib.import_module("web").create_app(str(directory / "db"), str(directory / "rocktray"))
    app.config["PROPAGATE_EXCEPTIONS"] = False
    return app.test_client()


@pytest.mark.quick
def test_mails_with_one_id(tmp_path):
    """Mails with one id that differ are all on the pages of search, of the thread and of each of them."""
    subjects = ("Zebra first", "Zebra later", "Zebra last")
    client = made(tmp_path, "", *({"message_id": ["1@x"], "subject": subject} for subject in subjects), {"message_id": ["2@x"]})
    assert client.get("/?q=zebra").text.count("3 mails with this id, which differ") == 3
    thread = client.get("/thread?id=1@x").text
    assert "<h1>Thread of 3 mails</h1>" in thread and all(f">{subject}<" in thread for subject in subjects)
    for number in (1, 2, 3):
        page = client.get(f"/mail/0/{number}").text
        assert "<h2>3 mails with this id, which differ</h2>" in page and page.count("This mail") == 1
        assert all((f">{subject}</a>" in page) == (at != number) for at, subject in enumerate(subjects, 1))
    assert "with this id" not in client.get("/mail/0/4").text


@contextlib.contextmanager
def served(app):
    """Serves an application by Werkzeug. Yields its address."""
    server = importlib.import_module("werkzeug.serving").make_server("127.0.0.1", 0, app)
    thread = threading.Thread(target=server.serve_forever)
    thread.start()
    try:
        yield f"http://127.0.0.1:{server.server_port}"
    finally:
        server.shutdown()
        thread.join()
        server.server_close()


@pytest.mark.quick
@pytest.mark.parametrize(
    "name, ascii_name",
    [
        ("quagga.pdf", "quagga.pdf"),
        ("Rechnung f\u00fcr M\u00e4rz \u20ac.pdf", "Rechnung fur Marz _.pdf"),
        ("\u0417\u0432\u0456\u0442.pdf", "____.pdf"),
        ("\u8acb\u6c42\u66f8", "___"),
        ("\u2100\uff0f\uff3c\uff02;\u00e9.txt", "a_c___;e.txt"),
        ("\u00e9\u202efdp\u2028\uffff.exe", "e_fdp__.exe"),
        ('a";b=c.txt', 'a";b=c.txt'),
    ],
)
def test_names_of_downloads(tmp_path, name, ascii_name):
    """A file with any name is sent with it in UTF-8 (RFC 6266, section 4.3), and with one in ASCII for older browsers."""
    file = {"path": "2", "type": "application/pdf", "extracted": True, "text": None, "file_name": name}
    client = made(tmp_path, f"printf hi > \"$4\"/'{name}'", {"parts": [{}, file]})
    with served(client.application) as address:
        status, headers, content = get(address, "/file/0/1/0")
    assert (status, content, headers["Content-Type"]) == (200, "hi", "application/octet-stream")
    message = EmailMessage()
    message["Content-Disposition"] = re.sub(r"; filename\*=.*", "", headers["Content-Disposition"])
    assert (message.get_content_disposition(), message.get_filename()) == ("attachment", ascii_name)
    message.replace_header("Content-Disposition", re.sub(r"; filename=(\"(\\\\.|[^\"])*\"|[^;]*)(?=;|$)", "", headers["Content-Disposition"]))
    assert message.get_filename() == (None if name.isascii() else re.sub("[\u202e\u2028\uffff]", "_", name))


@pytest.mark.quick
def test_hosts(tmp_path):
    """Requests name this machine and the port, which browsers leave out if it is 80; others are refused."""
    client, web = made(tmp_path, "", {}), importlib.import_module("web")
    for port, hosts, others in (
        (80, ("127.0.0.1", "localhost", "[::1]", "localhost:80"), ("127.0.0.1:8025", "mail.example.org", "")),
        (8025, ("127.0.0.1:8025", "localhost:8025", "[::1]:8025"), ("127.0.0.1", "localhost:80", "mail.example.org:8025", "")),
    ):
        app = web.create_app(str(tmp_path / "db"), client.application.name, web.hosts_of("127.0.0.1", port)).test_client()
        for host in (*hosts, *others):
            assert app.get("/", headers={"Host": host}).status_code == (200 if host in hosts else 403), (port, host)


# those that RULES.md lists under "Hidden characters", and numbers of no character (Unicode, section 23.7)
UNSEEN = [0, 8, 11, 13, 27, 31, 127, 128, 159, 0x61C, 0x200E, 0x200F, *range(0x2028, 0x202F), *range(0x2066, 0x206A)]
UNSEEN += [0xFDD0, 0xFDEF, 0xFFFE, 0xFFFF, 0x1FFFE, 0x10FFFF]


@pytest.mark.quick
def test_hidden_characters(tmp_path):
    """No page and no plot has a character that is not seen; those that are seen stay."""
    hidden, seen = "".join(map(chr, UNSEEN)), "\xa0\u200d\u2010\u202f\ufffd\U0001f600\u05d0"
    text = f"x{hidden}{seen}"
    file = {"path": "2", "type": text, "extracted": True, "text": None, "file_name": text, "headers": [["List-Id", f"<l{hidden}>"]]}
    member = {"from": [{"name": text, "address": text}], "to": [{"unknown": text}], "subject": text, "message_id": [text]}
    head = {"headers": [["List-Id", f"<l{hidden}>"]], "text": f"quagga\t1\n{text}"}
    client = made(tmp_path, "", {**member, "parts": [head, file]}, {**member, "subject": f"Re: {text}", "parts": [head]}, {"error": text, "file": text})
    paths = ["/", "/?q=quagga", "/mail/0/1", "/mail/0/2", "/thread?id=" + urllib.parse.quote(text), "/refused", "/plots", "/plots/senders.svg", "/plots/months.svg"]
    for path in paths:
        answer = client.get(path)
        page = html.unescape(answer.text)
        assert answer.status_code == 200 and not set(page) & set(hidden), (path, set(page) & set(hidden))
        assert path == "/plots/months.svg" or f"\ufffd{seen}" in page or "svg" in path and seen in page, path
        if path.endswith(".svg"):
            ElementTree.fromstring(answer.text)
    assert "<pre>quagga\t1\nx" in client.get("/mail/0/1").text


@pytest.mark.quick
def test_line_ends(tmp_path):
    """CR LF in a text is a line end; any other CR is shown as what it is, a character that is not seen."""
    client = made(tmp_path, "", {"parts": [{"text": "one\r\ntwo\r\n\r\nthree\r"}]}, {"parts": [{"text": "one\ntwo\r\r\n"}]})
    assert "<pre>one\ntwo\n\nthree\ufffd</pre>" in client.get("/mail/0/1").text
    assert "<pre>one\ntwo\ufffd\n</pre>" in client.get("/mail/0/2").text


@pytest.mark.quick
def test_faults(tmp_path, monkeypatch):
    """What is not there is a 404, however large its number is, a file that takes too long to read a 503, and a mail of a
    mailbox that changed a 410."""
    file = {"path": "2", "type": "application/pdf", "extracted": True, "text": None, "file_name": "a"}
    client = made(tmp_path, "exec sleep 60", {"parts": [{}, file]})
    for number in (2, 2**31, 2**63 - 1, 2**63, 2**64, 10**100):
        for path in (f"/mail/0/{number}", f"/raw/0/{number}", f"/file/0/{number}/0", f"/file/0/1/{number}", f"/mail/{number}/1"):
            answer = client.get(path)
            assert answer.status_code == 404 and "Content-Security-Policy" in answer.headers and "<h1>Not Found</h1>" in answer.text, path
    assert client.get("/raw/0/1").text == "Subject: Zebra\n\nword\n"
    monkeypatch.setattr(importlib.import_module("web"), "SECONDS", 0.2)
    answer = client.get("/file/0/1/0")
    assert answer.status_code == 503 and "not read within 0.2 seconds" in answer.text
    (tmp_path / "box").write_text("Subject: Other\n\nword\n")
    for path in ("/raw/0/1", "/file/0/1/0"):
        answer = client.get(path)
        assert answer.status_code == 410 and "changed since it was indexed" in answer.text and "Other" not in answer.text


def test_mails_in_crlf(tmp_path):
    """Mails with CR LF, as they come by SMTP, have pages like those with LF, and their own bytes and files."""
    need_flask()
    mails = [mail.encode().replace(b"\n", b"\r\n") for mail in MAILS[:2]] + [b"Subject: plain\r\n\r\none\r\ntwo\r\n\r\nthree\r\n"]
    box = FROM.replace(b"\n", b"\r\n")
    (tmp_path / "mails").mkdir()
    (tmp_path / "mails" / "box").write_bytes(b"".join(box + mail + b"\r\n" for mail in mails))
    command = [sys.executable, os.path.join(EXAMPLES, "index_archive.py"), "out", "mails", "--program", program("rocktray"), "--load", "db"]
    subprocess.run(command, cwd=tmp_path, stderr=subprocess.DEVNULL, check=True)
    client = importlib.import_module("web").create_app(str(tmp_path / "db"), program("rocktray")).test_client()
    found = {}
    for link in links(client.get("/").text, "/mail/"):
        page = client.get(link).text
        assert "\ufffd" not in page and "\r" not in page, link
        found[client.get(link.replace("/mail/", "/raw/")).data] = page
    assert sorted(found) == sorted(mails)
    for mail, text in zip(mails, ("The quagga is extinct.", "So &lt;is&gt; the aurochs.", "one\ntwo\n\nthree")):
        assert re.search(rf"<pre>{re.escape(text)}\n?</pre>", found[mail]), text
    assert client.get(links(found[mails[0]], "/file/")[0]).data == b"%PDF-x"


def get(address, path, host=None):
    """Returns the status, the headers and the body of an answer."""
    request = urllib.request.Request(address + path, headers={"Host": host} if host else {})
    try:
        with urllib.request.urlopen(request, timeout=20) as answer:
            return answer.status, answer.headers, answer.read().decode()
    except urllib.error.HTTPError as fault:
        return fault.code, fault.headers, fault.read().decode()


def links(text, begin):
    """Returns the links of a page that begin so."""
    return [link.replace("&amp;", "&") for link in re.findall(r'href="([^"]*)"', text) if link.startswith(begin)]


def test_pages(address):
    """Search, facets, a mail, its thread and its file."""
    _, _, found = get(address, "/?q=zebra")
    assert "<h1>2 mails</h1>" in found and found.index("Re: Zebra crossing") < found.index("\">Zebra crossing")
    for facet in ("year=2025", "sender=Ana", "list=l.example", "type=application"):
        assert any(facet in link for link in links(found, "/?")), f"a facet {facet}"
    assert "<h1>1 mail</h1>" in get(address, "/?q=zebra&has=attachment")[2]
    assert "<h1>0 mails</h1>" in get(address, "/?q=zebra&year=1999")[2]
    assert "The query is wrong" in get(address, "/?q=(")[2]
    mail = next(get(address, link)[2] for link in links(found, "/mail/") if "quagga" in get(address, link)[2])
    assert "The quagga is extinct." in mail and "mails.mbox, bytes" in mail
    _, headers, content = get(address, links(mail, "/file/")[0])
    assert (content, headers["Content-Disposition"], headers["Content-Type"]) == ("%PDF-x", "attachment; filename=quagga.pdf", "application/octet-stream")
    assert get(address, links(mail, "/raw/")[0])[2] == MAILS[0]
    of_html = next(get(address, link)[2] for link in links(get(address, "/?q=aurochs")[2], "/mail/"))
    assert "<pre>So &lt;is&gt; the aurochs.</pre>" in of_html, "a mail with HTML alone"
    thread = get(address, "/thread?id=2@small")[2]
    assert re.search(r'level-0.*Zebra crossing.*level-1.*Re: Zebra crossing', thread, re.DOTALL)
    refused = get(address, "/refused")[2]
    assert "<h1>1 refused mail</h1>" in refused and ".mbox, bytes 0 to 9" in refused and "Header cannot start" in refused
    plots = get(address, "/plots")[2]
    assert "<td>2025-03</td><td>3</td>" in plots and "<td>Ana Lima &lt;ana@example.net&gt;</td><td>1</td>" in plots
    for name in ("months", "senders"):
        assert ElementTree.fromstring(get(address, f"/plots/{name}.svg")[2]).tag == "{http://www.w3.org/2000/svg}svg"


def test_safety(address):
    """No page has markup of a mail, each has a policy, and other hosts are refused."""
    paths = ["/", "/?q=alert", f"/?q={urllib.parse.quote(EVIL)}", "/thread?id=2@small", "/plots", "/refused", "/plots/senders.svg", "/none", "/mail/0/99", "/mail/99/1"]
    paths += [link for link in links(get(address, "/")[2], "/") if not link.startswith("/static")]
    for path in paths:
        _, headers, text = get(address, path)
        assert "<script" not in text and "<img src=http" not in text and "\x1b" not in text, f"{path}: markup of a mail"
        assert headers["Content-Security-Policy"].startswith("default-src 'none'") and headers["X-Content-Type-Options"] == "nosniff", path
    hostile = next(get(address, link)[2] for link in links(get(address, "/?q=alert")[2], "/mail/"))
    for link in links(hostile, "/file/"):
        _, headers, _ = get(address, link)
        assert headers["Content-Disposition"].startswith("attachment") and headers["Content-Type"] == "application/octet-stream", link
        assert "/" not in headers["Content-Disposition"] and headers["X-Content-Type-Options"] == "nosniff", link
    assert get(address, "/", host="mail.example.org")[0] == 403


def chromium(downloads):
    """Starts a browser as wide as a phone."""
    try:
        from selenium import webdriver
    except ImportError:
        missing("selenium is missing (Debian: python3-selenium, chromium-driver)")
    options = webdriver.ChromeOptions()
    for argument in ("--headless=new", "--no-sandbox", "--disable-dev-shm-usage"):
        options.add_argument(argument)
    options.add_experimental_option("prefs", {"download.default_directory": str(downloads)})
    options.set_capability("goog:loggingPrefs", {"browser": "ALL", "performance": "ALL"})
    browser = webdriver.Chrome(service=webdriver.chrome.service.Service("/usr/bin/chromedriver"), options=options)
    browser.execute_cdp_cmd("Emulation.setDeviceMetricsOverride", {"width": 390, "height": 844, "deviceScaleFactor": 1, "mobile": True})
    return browser


# the least contrast of texts with the background, by the formula of WCAG 2.1; and elements that are beyond the content's edge
LOOKS = """
const numbers = (text) => text.match(/[0-9.]+/g).map(Number);
const light = (rgb) => {
    const [r, g, b] = rgb.slice(0, 3).map(v => (v /= 255) <= 0.03928 ? v / 12.92 : ((v + 0.055) / 1.055) ** 2.4);
    return 0.2126 * r + 0.7152 * g + 0.0722 * b;
};
const probe = document.createElement('div');
probe.style.color = 'Canvas';
document.body.append(probe);
const canvas = light(numbers(getComputedStyle(probe).color));
probe.remove();
const ratio = (a, b) => (Math.max(a, b) + 0.05) / (Math.min(a, b) + 0.05);
const seen = [...document.querySelectorAll('main *')].filter(it => it.getClientRects().length);
const edge = document.querySelector('main').getBoundingClientRect().right + 1;
return {
    least: Math.min(...seen.map(it => ratio(light(numbers(getComputedStyle(it).color)), canvas))),
    beyond: [...document.querySelectorAll('header *, main *')].filter(it => !it.closest('figure') && it.getBoundingClientRect().right > edge).map(it => it.outerHTML),
    wide: document.documentElement.scrollWidth > innerWidth,
};
"""


@pytest.mark.parametrize("scheme", ["light", "dark"])
def test_looks(address, tmp_path, scheme):
    """On a phone nothing is cut off, and texts have the contrast of WCAG 2.1 (AA), by day and by night."""
    with chromium(tmp_path) as browser:
        browser.execute_cdp_cmd("Emulation.setEmulatedMedia", {"features": [{"name": "prefers-color-scheme", "value": scheme}]})
        for path in ("/?q=zebra", "/?q=alert", "/thread?id=2@small", "/plots", "/refused", "/none", "/mail/0/1"):
            browser.get(address + path)
            browser.save_screenshot(str(tmp_path / f"{re.sub('[^a-z]', '', path)}.png"))
            looks = browser.execute_script(LOOKS)
            assert looks["least"] >= 4.5 and not looks["beyond"] and not looks["wide"], (path, looks)


def test_keys(address, tmp_path):
    """Without a mouse: the first key leads to a link past the header, then the links, the words and the mails, and Enter opens one."""
    from selenium.webdriver.common.keys import Keys

    with chromium(tmp_path) as browser:
        browser.get(f"{address}/?q=zebra")
        reached = []
        for _ in range(7):
            browser.switch_to.active_element.send_keys(Keys.TAB)
            now = browser.switch_to.active_element
            reached.append(now.get_attribute("id") or now.text)
            assert now.is_displayed() and now.value_of_css_property("outline-style") == "solid", reached
        assert reached == ["Skip to the content", "Search", "Plots", "Refused", "q", "Search", "Re: Zebra crossing"]
        browser.switch_to.active_element.send_keys(Keys.ENTER)
        assert browser.title == "Re: Zebra crossing"


def test_browser(address, tmp_path):
    """In a browser: search, thread, mail and download; no dialog, no other address, and nothing in the console."""
    with chromium(tmp_path) as browser:
        from selenium.webdriver.common.by import By

        browser.get(address)
        browser.find_element(By.NAME, "q").send_keys("zebra quagga\n")
        assert browser.find_element(By.TAG_NAME, "h1").text == "1 mail"
        browser.find_element(By.LINK_TEXT, "thread").click()
        assert browser.find_element(By.TAG_NAME, "h1").text == "Thread of 2 mails"
        browser.save_screenshot(str(tmp_path / "thread.png"))
        browser.find_element(By.LINK_TEXT, "Zebra crossing").click()
        browser.find_element(By.LINK_TEXT, "quagga.pdf").click()
        for _ in range(100):
            if (tmp_path / "quagga.pdf").exists():
                break
            time.sleep(0.1)
        assert (tmp_path / "quagga.pdf").read_bytes() == b"%PDF-x"
        browser.get(f"{address}/?q=alert")
        browser.find_element(By.CSS_SELECTOR, ".mails .subject").click()
        assert EVIL in browser.find_element(By.TAG_NAME, "pre").text
        browser.save_screenshot(str(tmp_path / "hostile.png"))
        browser.get(f"{address}/plots")
        assert browser.execute_script("return document.documentElement.scrollWidth <= window.innerWidth"), "a page is wider than a phone"
        assert browser.get_log("browser") == []
        asked = re.findall(r'"url":"(https?://[^"]*)"', "".join(entry["message"].replace('\\"', '"') for entry in browser.get_log("performance")))
        assert asked and all(url.startswith(f"{address}/") for url in asked), "a request to another address"
