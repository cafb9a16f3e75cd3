"""Reads mail: a proved MIME reader, as a module.

>>> import rocktray
>>> mail = rocktray.parse(b"Subject: =?utf-8?q?caf=C3=A9?=\\n\\nAt noon?\\n")
>>> mail.subject, mail.text
('café', 'At noon?\\n')

Everything is safe to use from several threads at once. Python's lock is free while many bytes are read.
"""

from . import _library
from ._library import Refused, TooMany
from ._mail import Mail, parse
from ._mailbox import Mailbox, open_mailbox
from ._maildir import Maildir, open_maildir
from ._part import Header, Part, TextFile
from ._values import Address, Finding, Recipient, read_date, read_ids

__all__ = [
    "Address",
    "Finding",
    "Header",
    "Mail",
    "Mailbox",
    "Maildir",
    "Part",
    "Recipient",
    "Refused",
    "TextFile",
    "TooMany",
    "open_mailbox",
    "open_maildir",
    "parse",
    "read_date",
    "read_ids",
]
__version__ = _library.version()

for _name in __all__:
    # the name under which users import it, for messages and pickles
    globals()[_name].__module__ = "rocktray"
