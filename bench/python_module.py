"""Times the Python module beside Python's email, with compat32 and with policy=default.

The works: to parse a mail; five members with the names of the files; the names and values of all headers, for which
email has BytesHeaderParser; everything, which is all headers decoded, and of each part its type, name, bytes and text;
and subject, sender and date of each mail of a mailbox, for which email has mailbox.mbox. Threads read a mailbox of 100 MB,
which they share or which each opens for itself, or everything of mails that are shared out among 1, 2 and 4 of them. The
module is the one that Python finds: install the wheel, or unpack it into a directory and name that in PYTHONPATH.
"""
import email
import email.policy
import email.utils
import glob
import mailbox
import os
import sys
import tempfile
import threading
import time
from email.header import decode_header, make_header
from email.parser import BytesHeaderParser

try:
    import rocktray
except ImportError:  # --help needs no module
    rocktray = None
import made_mails

TOP = os.path.dirname(os.path.dirname(os.path.abspath(__file__)))
THREADS = (1, 2, 4)
LARGE = 1 << 16
# the bytes of a mailbox that threads share
SHARED = 100_000_000


def decoded(value):
    """The text of a value, by compat32."""
    return value and str(make_header(decode_header(value)))


def text_of(part, content):
    try:
        return content.decode(part.get_content_charset("us-ascii"), "replace")
    except LookupError:
        return content.decode("latin-1")


class Rocktray:
    """The works by the module."""

    @staticmethod
    def parse(raw):
        return rocktray.parse(raw)

    @staticmethod
    def envelope(mail):
        return [mail.subject, mail.from_, mail.date]

    @classmethod
    def members(cls, raw):
        mail = cls.parse(raw)
        return cls.envelope(mail) + [mail.to, mail.message_id, [part.file_name for part in mail.walk()]]

    @classmethod
    def headers(cls, raw):
        return [(header.name, header.value) for header in cls.parse(raw).headers]

    @classmethod
    def everything(cls, raw):
        mail = cls.parse(raw)
        found = cls.envelope(mail) + [mail.to, mail.cc, mail.message_id, mail.references]
        for part in mail.walk():
            found += [part.content_type, part.file_name, part.is_attachment, part.text]
            found += [(header.name, header.value) for header in part.headers]
            found.append(None if part.is_damaged else part.content)
        return found

    @classmethod
    def mailbox(cls, path):
        return [cls.envelope(mail) for mail in rocktray.open_mailbox(path) if not mail.error]


class Compat32:
    """The works by email."""

    policy = email.policy.compat32

    @classmethod
    def parse(cls, raw):
        return email.message_from_bytes(raw, policy=cls.policy)

    @classmethod
    def addresses(cls, message, name):
        return [(decoded(one), address) for one, address in email.utils.getaddresses(message.get_all(name, []))]

    @classmethod
    def time(cls, message):
        return message["date"] and email.utils.parsedate_to_datetime(message["date"])

    @classmethod
    def value(cls, value):
        return decoded(value)

    @classmethod
    def envelope(cls, message):
        return [cls.value(message["subject"]), cls.addresses(message, "from"), cls.time(message)]

    @classmethod
    def members(cls, raw):
        message = cls.parse(raw)
        found = cls.envelope(message) + [cls.addresses(message, "to"), message["message-id"]]
        return found + [[part.get_filename() for part in message.walk()]]

    @classmethod
    def headers(cls, raw):
        return [(name, cls.value(value)) for name, value in BytesHeaderParser(policy=cls.policy).parsebytes(raw).items()]

    @classmethod
    def everything(cls, raw):
        message = cls.parse(raw)
        found = cls.envelope(message) + [cls.addresses(message, "to"), cls.addresses(message, "cc")]
        found += [message["message-id"], message["references"]]
        for part in message.walk():
            content = part.get_payload(decode=True)
            found += [part.get_content_type(), part.get_filename(), part.get_content_disposition(), content]
            found += [(name, cls.value(value)) for name, value in part.items()]
            if content is not None and part.get_content_maintype() == "text":
                found.append(text_of(part, content))
        return found

    @classmethod
    def mailbox(cls, path):
        messages = mailbox.mbox(path, factory=lambda file: cls.parse(file.read()))
        return [cls.envelope(message) for message in messages]


class Default(Compat32):
    """The works by email with policy=default, which reads values as its header classes do."""

    policy = email.policy.default

    @classmethod
    def addresses(cls, message, name):
        value = message[name]
        return value and [(one.display_name, one.addr_spec) for one in value.addresses]

    @classmethod
    def time(cls, message):
        return message["date"] and message["date"].datetime

    @classmethod
    def value(cls, value):
        return value and str(value)


READERS = {"rocktray": Rocktray, "compat32": Compat32, "policy=default": Default}
WORKS = ("parse", "members", "headers", "everything")


def readable(mails):
    """The mails that each reader reads: email raises errors of many kinds."""
    kept = []
    if rocktray is None:
        raise ImportError("the module rocktray is missing: install the wheel")
    for raw in mails:
        try:
            for reader in READERS.values():
                for work in WORKS:
                    getattr(reader, work)(raw)
        except Exception:  # noqa: BLE001
            continue
        kept.append(raw)
    return kept


def seconds(call, *arguments):
    """The seconds that a call takes."""
    start = time.perf_counter()
    call(*arguments)
    return time.perf_counter() - start


def read_all(read, mails):
    for raw in mails:
        read(raw)


def run_threads(targets):
    """Runs each call in a thread."""
    threads = [threading.Thread(target=call, args=arguments) for call, *arguments in targets]
    for thread in threads:
        thread.start()
    for thread in threads:
        thread.join()


def with_threads(count, mails):
    """Reads everything of mails that are shared out among threads."""
    run_threads([(read_all, Rocktray.everything, mails[k::count]) for k in range(count)])


def mailbox_with_threads(count, path):
    """Reads a mailbox that threads share."""
    mails = rocktray.open_mailbox(path)
    run_threads([(lambda: [Rocktray.envelope(mail) for mail in mails if not mail.error],)] * count)


def mailboxes_with_threads(count, path):
    """Reads a mailbox as often as there are threads at most. Each thread opens it anew."""
    run_threads([(lambda: [len(Rocktray.mailbox(path)) for _ in range(max(THREADS) // count)],)] * count)


def measured(mails, path, shared, path_of_shared):
    """The works with their mails, and what times each: a call for each reader, or for each number of threads. Threads share
    a mailbox of more mails.
    """
    for work in WORKS:
        yield work, mails, {name: (read_all, getattr(reader, work), mails) for name, reader in READERS.items()}
    yield "mailbox", mails, {name: (reader.mailbox, path) for name, reader in READERS.items()}
    for work, some, call in (
        ("threads, one mailbox", shared, mailbox_with_threads),
        ("threads, a mailbox each", shared * max(THREADS), mailboxes_with_threads),
    ):
        yield work, some, {f"{count} threads": (call, count, path_of_shared) for count in THREADS}
    large = [raw for raw in mails if len(raw) >= LARGE] * 4
    for work, some in (("threads", mails * 4), (f"threads, mails of {LARGE >> 10} kB and more", large)):
        if some:
            yield work, some, {f"{count} threads": (with_threads, count, some) for count in THREADS}


def least_times(calls, rounds):
    """The least seconds of each call, which take turns."""
    least = dict.fromkeys(calls, float("inf"))
    for _ in range(rounds):
        for name, (call, *arguments) in calls.items():
            least[name] = min(least[name], seconds(call, *arguments))
    return least


def contents(path):
    with open(path, "rb") as file:
        return file.read()


def samples(_real):
    return [contents(path) for path in sorted(glob.glob(f"{TOP}/samples/*.eml"))] * 20


def made_mailbox(_real):
    return list(made_mails.mails(1))[:500]


def attachment(_real):
    return [made_mails.KINDS["attachment"][1](1)] * 4


def real_mails(real):
    return [contents(path) for path in sorted(glob.glob(f"{real}/**", recursive=True)) if os.path.isfile(path)]


# by case: the mails, from the directory of real mails
CASES = {"python-samples": samples, "python-mailbox": made_mailbox, "python-attachment": attachment, "python-real": real_mails}


def write_mailbox(mails, file):
    """Writes mails as a mailbox in which no line of a mail is a separator."""
    for raw in mails:
        lines = raw.replace(b"\nFrom ", b"\n>From ").rstrip(b"\r\n")
        separator = b"" if lines.startswith(b"From ") else b"From a@b Thu Jan  1 00:00:00 1970\n"
        file.write(separator + lines + b"\n\n")
    file.flush()


def table(names, real, turns):
    """Prints the microseconds for each mail and how many times as long email takes, and yields the figures of each case."""
    for name in names:
        print(f"bench.py: {name}", file=sys.stderr)
        mails = CASES[name](real)
        kept = readable(mails)
        if not kept:
            print(f"bench.py: {name} is left out: email reads none of {len(mails)} mails", file=sys.stderr)
            continue
        print(f"\n| {name}: {len(kept)} of {len(mails)} mails, of {sum(map(len, kept)) // len(kept)} bytes | us a mail | times as long |")
        print("|---|---|---|")
        figures = {}
        shared = kept * max(1, SHARED // sum(map(len, kept)))
        with tempfile.NamedTemporaryFile() as file, tempfile.NamedTemporaryFile() as long:
            write_mailbox(kept, file)
            write_mailbox(shared, long)
            for work, some, calls in measured(kept, file.name, shared, long.name):
                least = {key: 1e6 * it / len(some) for key, it in least_times(calls, turns).items()}
                first = next(iter(least.values()))
                ratios = "; ".join(f"{key} {it / first:.2f}" for key, it in list(least.items())[1:])
                print(f"| {work} | {first:.1f} | {ratios} |", flush=True)
                figures |= {f"{key} {work}": it for key, it in least.items()}
        yield name, figures
