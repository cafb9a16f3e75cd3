"""The calls of the C library (c/rocktray.h), which the extension `_engine` links, on bytes-like objects."""

from __future__ import annotations

from typing import TYPE_CHECKING, Any, Iterator, List, Optional, Tuple, Union

try:
    from . import _engine
except ImportError as why:
    raise ImportError("rocktray cannot load its extension: install the wheel of a release, or ./python by pip") from why

if TYPE_CHECKING:
    import mmap

    Bytes = Union[bytes, bytearray, memoryview, mmap.mmap]

NO_MEMORY = 2
TOO_DEEP = 18
NOT_BASE64 = 19
REFUSED = 21
TOO_MANY = 22
DATE_YEAR = 34
# the most parts and headers of a mail, unless the caller gives a limit
MOST_ITEMS = 1_000_000
# a limit that no mail reaches
UNLIMITED = 2**63 - 1
# the most mails of a mailbox that are found by one call
MOST = 1000


class Refused(ValueError):
    """The library refuses the input. The `text` says why, `number` is the code of the reason (rocktray.h), and `place`
    is where the mail begins and ends in its mailbox, or `None` outside of one.
    """

    def __init__(self, text: str, number: int = 0, place: Optional[Tuple[int, int]] = None) -> None:
        super().__init__(text, number, place)
        self.text = text
        self.number = number
        self.place = place

    def __str__(self) -> str:
        return self.text if self.place is None else f"{self.text} (the mail at {self.place[0]} of its mailbox)"


class TooMany(Refused):
    """The mail has more parts and headers than the limit."""


def refusal(code: int, place: Optional[Tuple[int, int]] = None) -> Refused:
    """The exception for a code. The extension raises it."""
    return (TooMany if code == TOO_MANY else Refused)(_engine.reason(code), code, place)


def version() -> str:
    """The version of the library."""
    number = _engine.version()
    return f"{number // 10000}.{number // 100 % 100}.{number % 100}"


def name_of(name: str) -> Optional[bytes]:
    """The name of a header as headers have it: each byte is the character of its number. `None` if none can have it."""
    try:
        return name.encode("latin-1")
    except UnicodeEncodeError:
        return None


def header(mail: Bytes, name: str, number: int = 0) -> Optional[str]:
    """The value of the header with this name and number, counting from 0: the headers alone are read."""
    return None if name_of(name) is None else _engine.header(mail, name.encode(), number)


def raw_header(part: Bytes, name: str, number: int = 0) -> Optional[bytes]:
    """The raw value of that header."""
    return None if name_of(name) is None else _engine.raw_header(part, name.encode(), number)


def block_refusal(part: Bytes) -> str:
    """Why the header block of a part is refused, otherwise that the part is too deep."""
    try:
        raw_header(part, "")
    except Refused as error:
        return error.text
    return _engine.reason(TOO_DEEP)


def ids(text: str, needs_at: bool) -> List[str]:
    """The message ids in a text."""
    found = _engine.ids(text, needs_at)
    return found[1:-1].split("><") if found else []


_next_mail = _engine.mails


def mails_of(mailbox: bytes, at: int, last: int, is_counted: bool) -> Iterator[Tuple[int, int, int]]:
    """For each mail from an offset on whose separator does not begin after `last`, the offsets at which it begins and
    ends, and that of the next separator.
    """
    while found := _next_mail(mailbox, at, last, is_counted, MOST):
        yield from found
        at = found[-1][2]
