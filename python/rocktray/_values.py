"""Single values of headers."""

from __future__ import annotations

import re
from datetime import datetime, timedelta, timezone
from typing import List, NamedTuple, Optional

from . import _engine, _library
from ._library import Refused

_EPOCH = datetime(1970, 1, 1, tzinfo=timezone.utc)
# the seconds that `datetime` can have
_FIRST, _LAST = (
    (time.replace(tzinfo=timezone.utc) - _EPOCH) // timedelta(seconds=1) for time in (datetime.min, datetime.max)
)

# what needs quotes in a display name, and what could begin a line, move a terminal or turn text
_SPECIAL = re.compile(r'[][()<>@,:;".\\]')
_HIDDEN = re.compile("[\x00-\x1f\x7f-\x9f\u061c\u200e\u200f\u2028-\u202e\u2066-\u2069]")


class Address(NamedTuple):
    """A mailbox: its display name and its address. Text that is no address is a name with an empty address. `str` shows
    it to people, with U+FFFD for hidden characters. It is no value of a header: there a name is encoded if it has
    characters outside ASCII, or looks like an encoded word.

    >>> str(Address("Ana Lima", "ana@example.org")), str(Address("Lima, Ana", "a@b")), str(Address("", "a@b"))
    ('Ana Lima <ana@example.org>', '"Lima, Ana" <a@b>', 'a@b')
    """

    name: str
    address: str

    def __str__(self) -> str:
        text = self.name or self.address
        if self.name and self.address:
            name = '"' + re.sub(r'(["\\])', r"\\\1", self.name) + '"' if _SPECIAL.search(self.name) else self.name
            text = f"{name} <{self.address}>"
        return _HIDDEN.sub("\ufffd", text)


class Recipient(NamedTuple):
    """A recipient of a delivery report (RFC 3464). A missing field is `None`."""

    final_recipient: Optional[str]
    original_recipient: Optional[str]
    action: Optional[str]
    status: Optional[str]
    diagnostic_code: Optional[str]


class Finding(NamedTuple):
    """A place of a mail at which other programs may read something else: its name, as `lone-cr`, and its class, which is
    `structure`, `bytes`, `name`, `text` or `note`; the path of the part; its bytes, from `start` up to `end`; and what
    programs read there."""

    name: str
    class_: str
    path: str
    start: int
    end: int
    sentence: str


def zone_of(offset: int) -> timezone:
    """The zone with this offset, or UTC if that is a day or more."""
    return timezone(timedelta(seconds=offset)) if offset and abs(offset) < 86400 else timezone.utc


def time_of(seconds: int, offset: Optional[int]) -> datetime:
    """The time of a date that is read, in its zone, or in UTC if that is unknown or a day or more away. Raises `Refused`
    if it is after the last year of Python's `datetime`."""
    try:
        if _FIRST <= seconds <= _LAST:
            return (_EPOCH + timedelta(0, seconds)).astimezone(zone_of(offset or 0))
    except OverflowError:
        pass
    raise Refused("the date is after the year 9999", _library.DATE_YEAR)


def read_date(text: str) -> datetime:
    """The time in the value of a Date header, in its zone, or in UTC if that is unknown. Raises `Refused` if there is
    none, or none before the year 10000.

    >>> read_date("Fri, 21 Nov 1997 09:55:06 -0600").isoformat()
    '1997-11-21T09:55:06-06:00'
    >>> read_date("21 Foo 1997 09:55:06")
    Traceback (most recent call last):
        ...
    rocktray.Refused: no month
    """
    _check_text(text, "a date")
    return time_of(*_engine.date(text))


def read_ids(text: str, needs_at: bool = True) -> List[str]:
    """The message ids in a text, without angle brackets; with `needs_at` only those with an `@`.

    >>> read_ids("Your mail <one@example.org> of <yesterday>")
    ['one@example.org']
    """
    _check_text(text, "a list of ids")
    return _library.ids(text, needs_at)


def _check_text(text: str, what: str) -> None:
    """Raises `TypeError` if this is no text."""
    if not isinstance(text, str):
        raise TypeError(f"{what} is text, not {type(text).__name__}")
