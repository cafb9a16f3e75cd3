"""The extension: the calls of the C library. python/engine/module.c says how inputs are read."""

from datetime import datetime, timezone
from typing import Any, Callable, Dict, List, Optional, Tuple, Type, TypeVar, overload

from ._library import Bytes
from ._mail import Mail as _OwnMail
from ._node import Node as _OwnNode
from ._part import Header as _PartHeader
from ._values import Address

def version() -> int: ...
def reason(code: int, /) -> str: ...
def json(mail: Bytes, /) -> bytes: ...
def recipients(mail: Bytes, /) -> List[Tuple[Optional[str], Optional[str], Optional[str], Optional[str], Optional[str]]]:
    """Of each recipient that a mail reports the members of `Recipient`."""

def findings(mail: Bytes, /) -> List[Tuple[str, str, str, int, int, str]]:
    """Of each finding of a mail the members of `Finding`."""

def text_files(text: Bytes, limit: int, /) -> List[Tuple[int, int, str, bytes, bool]]:
    """Of each uuencoded file in a text, of which at most `limit` blocks are read: where its block begins and ends, its
    name, its bytes, and whether it is damaged.
    """

def bounced_id(mail: Bytes, /) -> Optional[str]: ...
def header(part: Bytes, name: bytes, number: int, /) -> Optional[str]: ...
def raw_header(part: Bytes, name: bytes, number: int, /) -> Optional[bytes]: ...
def ids(text: str, needs_at: bool, /) -> str: ...
def html_text(html: str, links: bool, /) -> str: ...
def readable_text(mail: Bytes, links: bool, /) -> Optional[str]: ...
def date(text: str, /) -> Tuple[int, Optional[int]]: ...
def unquoted(mail: Bytes, /) -> bytes: ...
def safe_name(name: str, /) -> str: ...
def mails(mailbox: Bytes, at: int, last: int, is_counted: bool, most: int, /) -> List[Tuple[int, int, int]]:
    """Of each of the next mails, but at most `most` and 10,000, whose separator begins at `last` or before: where it
    begins and ends, and where the next separator begins.
    """

@overload
def read(mail: Bytes, limit: int, /) -> Reading:
    """Reads a mail. More than `limit` parts and headers are refused."""

@overload
def read(data: Bytes, start: int, end: int, limit: int, /) -> Reading:
    """Reads the mail from `start` up to `end`, where all offsets are those in the data."""

def parse(type: Type[_Mail], mail: Bytes, limit: int, /) -> _Mail:
    """The same as a mail of this type."""

def last_separator(data: bytes, /) -> int:
    """Where the last separator after an empty line begins whose line and one more byte are there, or 0."""

def read_mails(
    type: Type[_Mail],
    found: Tuple[bytes, int, int, int],
    limit: int,
    use: Use,
    is_counted: bool,
    most: int,
    bytes: int,
    store: Store,
    /,
) -> Tuple[List[_Mail], Batch, int]:
    """Some mails of the data at an offset of a mailbox, from one offset in it up to the separator at another: at most
    `most`, and some bytes, from the last to the first; their batch; and where the next one begins. They are found in one
    call, without Python's lock, and read if earlier ones were used, with those of their values that were used. Nothing is
    copied, and records are put into the store.
    """

def values(address: Type[Address], zone_of: Callable[[int], timezone], /) -> None:
    """Gives the extension the type of addresses, and the function that returns the zone with an offset."""

class Use:
    """What is used of the mails of a mailbox."""

class Store:
    """The memory of a mailbox, which is used again."""

    def read(self, file: int, size: int, offset: int, /) -> Tuple[bytes, int]:
        """Bytes of a file, fewer at its end, and their `last_separator`. The object may be that of an earlier call, if
        nothing refers to it any more.
        """

    def close(self) -> None:
        """Frees what is kept. Nothing is kept from then on."""

class Batch:
    """Mails that were read together, which share their bytes."""

    def detach(self) -> None:
        """Gives each of the mails that are still there bytes of its own."""

class Mails:
    """The base of a mailbox: an iterator over mails that were read ahead."""

    _ahead: List[_OwnMail]
    """The mails, of which the last is the next. If there are none, `_read_ahead()` is called, and returns whether there
    are some now.
    """

    def __iter__(self: _Mails) -> _Mails: ...
    def __next__(self) -> _OwnMail: ...

class Mail:
    """The base of a mail: its bytes, what was read of them, and values that are decoded when they are first asked for, or
    ahead.
    """

    place: Optional[Tuple[int, int]]
    """The offsets at which it begins and ends in its mailbox, or `None` outside of one."""
    _data: Bytes
    _limit: int
    _own: Optional[List[_OwnNode]]
    _all: Optional[List[_OwnNode]]

    @property
    def raw(self) -> bytes:
        """The bytes of the mail."""

    @property
    def _reading(self) -> Reading:
        """The records of the mail. Raises `Refused` if it is refused."""

    @property
    def _read(self) -> Optional[Reading]:
        """The same if the mail was read and is not refused."""

    @property
    def _known(self) -> Dict[Any, Any]: ...
    @property
    def error(self) -> Optional[str]:
        """Why the mail is refused, or `None`. Everything else about a refused mail raises `Refused`, but for its bytes
        and `header`, which reads the headers alone.
        """

    @property
    def subject(self) -> Optional[str]:
        """The value of the first Subject, or `None`."""

    @property
    def from_(self) -> List[Address]:
        """The mailboxes in From, each a pair of a name and an address."""

    @property
    def to(self) -> List[Address]:
        """The mailboxes in To."""

    @property
    def cc(self) -> List[Address]:
        """The mailboxes in Cc."""

    @property
    def bcc(self) -> List[Address]:
        """The mailboxes in Bcc."""

    @property
    def sender(self) -> List[Address]:
        """The mailbox in Sender: who sent the mail, if that is not its only author."""

    @property
    def reply_to(self) -> List[Address]:
        """The mailboxes in Reply-To."""

    @property
    def date(self) -> Optional[datetime]:
        """The time in the first Date, in the zone of the sender, or in UTC if that is unknown; `None` if it is missing or
        cannot be read: `date_error` says why."""

    @property
    def date_error(self) -> Optional[str]:
        """What is missing or wrong in the first Date; otherwise `None`."""

    @property
    def is_date_zone_known(self) -> bool:
        """Whether the date gives its zone. Otherwise it is read as UTC."""

_Mail = TypeVar("_Mail", bound=Mail)
_Mails = TypeVar("_Mails", bound=Mails)

Part = Tuple[int, int, int, int, int, int, int, int, int, int, int]

class Header:
    """A header of a part."""

    def __init__(self, name: str, value: str, raw: bytes, /) -> None: ...
    @property
    def name(self) -> str: ...
    @property
    def value(self) -> str: ...
    @property
    def raw(self) -> bytes: ...

class Node:
    """A part of a mail or of a mail inside it. What is decoded of it is found when it is first asked for, and kept."""

    data: Bytes
    """The bytes of the mail, in which all offsets are counted."""
    reading: Reading
    number: int
    """The number of the part in its reading."""
    index: int
    """The number of the part in the mail, which counts those of mails inside it too."""
    path: str
    inside: Optional[str]
    is_encoded: bool
    """Whether the part is inside an encoded mail."""
    parent: Optional[int]
    """The index of the node that contains this one."""
    children: List[int]
    headers: Optional[List[_PartHeader]]
    """The headers, if they are known."""
    start: int
    end: int
    body_start: int
    body_end: int
    encoding: int
    flags: int
    _size: Optional[Tuple[int, bool]]
    """The number of bytes that can be read of the decoded body, and whether it is damaged, if they are known."""
    _body: Optional[bytes]
    """These bytes, if they were decoded for their number alone."""

    @property
    def type(self) -> Tuple[str, str, Dict[str, str]]:
        """The type, the charset and the parameters."""

    @property
    def file_name(self) -> Optional[str]: ...
    @property
    def disposition(self) -> Optional[str]: ...
    @property
    def text(self) -> Optional[str]:
        """The text, if the part is a text and no attachment."""

_Header = TypeVar("_Header", bound=Header)
_Node = TypeVar("_Node", bound=Node)
_Pair = TypeVar("_Pair", bound=Tuple[str, str])

class Reading:
    """A mail that was read: the records of its parts and headers. Its length is the number of parts. Parts and the
    headers of each are counted from 0, and names of headers are bytes.
    """

    def __len__(self) -> int: ...
    def nodes(self, type: Type[_Node], path: str, first: int, /) -> List[_Node]:
        """The parts as nodes, given the path of the part with the mail, and the index of the first."""

    def part(self, part: int, /) -> Part:
        """The members of struct rocktray_part; the parent of the mail itself is -1."""

    def value(self, part: int, name: bytes, number: int, /) -> Optional[str]: ...
    def values(self, part: int, name: bytes, /) -> List[str]: ...
    def headers(self, part: int, type: Type[_Header], /) -> List[_Header]: ...
    def raw_value(self, part: int, header: int, /) -> bytes: ...
    def type(self, part: int, /) -> Tuple[str, str, Dict[str, str]]: ...
    def disposition(self, part: int, /) -> Optional[str]: ...
    def file_name(self, part: int, /) -> Optional[str]: ...
    @overload
    def addresses(self, part: int, name: bytes, /) -> List[Tuple[str, str]]: ...
    @overload
    def addresses(self, part: int, name: bytes, type: Type[_Pair], /) -> List[_Pair]:
        """The same as instances of a type of tuples."""

    def date(self, part: int, /) -> Optional[Tuple[int, Optional[int]]]:
        """What `date` returns for the first Date, or `None` if there is none."""

    def ids(self, part: int, name: bytes, needs_at: bool, /) -> List[str]:
        """The message ids in the first header with this name. It is unfolded, and no encoded word in it is decoded: ids
        contain none.
        """

    def report(self, part: int, /) -> Optional[List[List[Tuple[str, str]]]]:
        """The blocks of the report that a part is, but for those at the end that have no fields."""

    def body(self, part: int, size: int, /) -> Tuple[bytes, bool]:
        """What can be read of the decoded body, and whether it is damaged; so are the next two. The size is the number
        of these bytes, or 0 if it is not known.
        """

    def body_size(self, part: int, /) -> Tuple[int, bool]: ...
    def text(self, part: int, /) -> Tuple[str, bool]: ...
    def charset(self, part: int, /) -> str:
        """The charset in which that text is read."""
