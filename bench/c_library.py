"""Times the C library beside GMime: microseconds for each mail of a mailbox.

The works: all parts and headers of a mail, which GMime calls parsing; and these with five values (subject, From and To as
addresses, Date as a time, the message id) and the names of all files.
"""
import os
import subprocess
import sys

import made_mails
import real_mail

TOP = os.path.dirname(os.path.dirname(os.path.abspath(__file__)))
WORKS = {"mailbox-parse": "parts and headers", "mailbox-values": "with five values and all file names"}
# the calls of this library alone, on mails that were found before
ALONE = {"mails-parse": "parts and headers, the mails being found before"}
# real mails are of this size at most: a few large attachments would be most of the bytes
LARGEST = 200_000
CASES = ("c-real", "c-mailbox")


def mails_of(name, real, is_read_by):
    """The mails of a case."""
    if name == "c-mailbox":
        return list(made_mails.mails(1))
    return [mail for mail in real_mail.chosen([real], 1 << 40, is_read_by) if len(mail) <= LARGEST]


def installed(work):
    """The flags of the C library, which is installed into a directory of the work."""
    prefix = os.path.join(work, "prefix")
    subprocess.run([os.path.join(TOP, "tools", "make_c_library.sh"), prefix], check=True, stdout=subprocess.DEVNULL)
    return [f"-I{prefix}/include", f"-L{prefix}/lib", "-lrocktray", f"-Wl,-rpath,{prefix}/lib"]


def table(names, real, readers, timed, turns, work, is_read_by):
    """Prints the microseconds for each mail, and yields the figures of each case."""
    for name in names:
        print(f"bench.py: {name}", file=sys.stderr)
        mails = mails_of(name, real, is_read_by)
        data = os.path.join(work, "input")
        with open(data, "wb") as file:
            file.write(real_mail.as_mailbox(mails))
        least, _ = timed(readers, WORKS, data, turns)
        size = os.path.getsize(data) / len(mails)
        print(f"\n| {name}: {len(mails)} mails of {size:.0f} bytes | " + " | ".join(f"{reader.title}, us a mail" for reader in readers) + " |")
        print("|---" * (len(readers) + 1) + "|")
        figures = {}
        for it, title in WORKS.items():
            figures |= {f"{reader.title} {it}": least[reader.title, it] * size / 1000 for reader in readers}
            print(f"| {title} | " + " | ".join(f"{figures[f'{reader.title} {it}']:.2f}" for reader in readers) + " |", flush=True)
        ours = readers[0].title
        least, _ = timed(readers[:1], ALONE, data, turns)
        for it, title in ALONE.items():
            figures[f"{ours} {it}"] = least[ours, it] * size / 1000
            print(f"| {title} | {figures[f'{ours} {it}']:.2f} |" + " |" * (len(readers) - 1), flush=True)
        yield name, figures
