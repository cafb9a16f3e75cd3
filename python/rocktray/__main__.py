"""`python3 -m rocktray FILE..` prints a line of JSON for each mail, and with `--mbox` for each mail of a mailbox.

The exit status is 0, or 3 if a mail is refused, whose line has its `error` alone, or 1 if a file cannot be read.
"""

import argparse
import json
import sys
from pathlib import Path
from typing import Iterator

from . import Mail, __version__, open_mailbox


def mails_of(file: str, is_mailbox: bool) -> Iterator[Mail]:
    """The mails of a file."""
    if not is_mailbox:
        yield Mail(Path(file).read_bytes())
        return
    with open_mailbox(file) as mailbox:
        yield from mailbox


def main() -> int:
    """Prints the lines, and returns the exit status."""
    parser = argparse.ArgumentParser(prog="python3 -m rocktray", description="Prints a line of JSON for each mail.")
    parser.add_argument("--mbox", action="store_true", help="the files are mailboxes")
    parser.add_argument("--version", action="version", version=__version__)
    parser.add_argument("files", metavar="FILE", nargs="+")
    asked = parser.parse_args()
    status = 0
    for file in asked.files:
        try:
            for mail in mails_of(file, asked.mbox):
                print(json.dumps({"error": mail.error} if mail.error else mail.json), flush=True)
                status = status or (3 if mail.error else 0)
        except (OSError, ValueError) as error:
            why = error.strerror if isinstance(error, OSError) and error.strerror else str(error)
            print(f"rocktray: {ascii(file)}: {why}", file=sys.stderr)
            status = 1
    return status


if __name__ == "__main__":
    sys.exit(main())
