"""Mails."""

from __future__ import annotations

import email.message
import email.policy
import json
from typing import TYPE_CHECKING, Any, Callable, Dict, Iterator, List, Optional, Tuple, TypeVar, Union
from typing import cast, overload

from . import _engine, _library
from ._library import MOST_ITEMS, UNLIMITED, Refused
from ._node import IS_ATTACHMENT, IS_EXTRACTED, IS_MAIL, IS_TEXT, Node, add_inside
from ._part import Header, Part, TextFile
from ._values import Address, Finding, Recipient, zone_of

if TYPE_CHECKING:
    from ._library import Bytes

Default = TypeVar("Default")
Value = TypeVar("Value")

_engine.values(Address, zone_of)


def _checked(raw: Any) -> "Bytes":
    """A buffer of contiguous bytes. Raises `TypeError` for what is no buffer, and says how to get the bytes of a mail."""
    try:
        with memoryview(raw) as view:
            return cast("Bytes", raw if view.c_contiguous else view.tobytes())
    except TypeError:
        kind = type(raw).__name__
    for name in ("read_bytes", "as_bytes", "read"):
        if hasattr(raw, name):
            raise TypeError(f"a mail is bytes, not {kind}: use its {name}(), or open_mailbox for a mailbox")
    advice = "read a file by pathlib.Path(..).read_bytes(), a mailbox by open_mailbox"
    raise TypeError(f"a mail is bytes, not {kind}: {advice}")


class Mail(_engine.Mail):
    """A mail. Its bytes are read when it is first used; `parse` reads them at once. What it has is decoded when it is
    asked for, and most of it remembered.

    It takes any bytes-like object, such as an `mmap`, and copies none of it: bytes that change give results of no use.
    With more parts and headers than `limit` it is refused; `None` is no limit. Raises `TypeError` for anything but bytes.

    >>> mail = parse(b"Subject: Hi\\nDate: Fri, 21 Nov 1997 09:55:06 -0600\\n\\nHello\\n")
    >>> mail.subject, mail.date.isoformat(), mail.text
    ('Hi', '1997-11-21T09:55:06-06:00', 'Hello\\n')
    >>> parse(b"From: =?utf-8?q?Doe=2C_Jos=C3=A9?= <j@example.org>\\n\\n").from_
    [Address(name='Doe, José', address='j@example.org')]

    Everything about a refused mail raises `Refused`, but for its `error`, its bytes and `header`, which reads the headers
    alone.

    >>> [mail.error or mail.subject for mail in (Mail(b"Subject: Hi\\n\\n"), Mail(b"A: b\\n\\n", limit=1))]
    ['Hi', 'Too many parts and headers']
    """

    __slots__ = ()

    def __init__(self, raw: "Bytes", place: Optional[Tuple[int, int]] = None, limit: Optional[int] = MOST_ITEMS) -> None:
        self._data = raw if isinstance(raw, bytes) else _checked(raw)
        self.place = place
        self._limit = UNLIMITED if limit is None else limit

    def _remember(self, key: Any, find: Callable[[], Value]) -> Value:
        """What is known by this key, which is found once."""
        known = self._known
        if key not in known:
            known[key] = find()
        return cast(Value, known[key])

    @property
    def _dispositions(self) -> Dict[str, Optional[str]]:
        """The dispositions of the parts by their paths, as the JSON has them. The records only have the common ones."""
        return self._remember(
            "dispositions", lambda: {part["path"]: part["disposition"] for part in self.json["parts"]}
        )

    def _ids(self, name: bytes, needs_at: bool) -> List[str]:
        """The ids in the first header with this name."""
        return self._reading.ids(0, name, needs_at)

    @property
    def json(self) -> Dict[str, Any]:
        """The object that `rocktray json` writes for the mail (docs/mail_json.schema.json). It is read anew
        each time, and yours to change.
        """
        self._reading
        return cast("Dict[str, Any]", json.loads(_engine.json(self._data)))

    @property
    def message_id(self) -> Optional[str]:
        """The mail's own id, without angle brackets, or `None`."""
        found = self._ids(b"message-id", False)
        return found[0] if found else None

    @property
    def in_reply_to(self) -> List[str]:
        """The ids in In-Reply-To."""
        return self._ids(b"in-reply-to", True)

    @property
    def references(self) -> List[str]:
        """The ids in References, in order."""
        return self._ids(b"references", True)

    @property
    def bounced_id(self) -> Optional[str]:
        """The id of the mail that a delivery report is about, or `None`."""
        self._reading
        return self._remember("bounced_id", lambda: _engine.bounced_id(self._data))

    @property
    def recipients(self) -> List[Recipient]:
        """The recipients that delivery reports anywhere in the mail are about, and those in X-Failed-Recipients.

        >>> parse(b"X-Failed-Recipients: a@b\\n\\n").recipients[0].final_recipient
        'a@b'
        """
        self._reading

        def found() -> List[Recipient]:
            return [Recipient(*texts) for texts in _engine.recipients(self._data)]

        return self._remember("recipients", found).copy()

    @property
    def headers(self) -> List[Header]:
        """The headers of the mail, in order."""
        return self._part(0).headers

    def header(self, name: str, number: int = 0) -> Optional[str]:
        """The value of the header with this name and number, counting from 0, or `None`.

        >>> parse(b"Received: one\\nReceived: two\\n\\n").header("received", 1)
        'two'
        """
        if number < 0:
            return None
        read = self._read
        if read is None:
            try:
                return _library.header(self._data, name, number)
            except Refused:  # the headers cannot be read: there is none
                return None
        key = _library.name_of(name)
        return None if key is None else read.value(0, key, number)

    def __getitem__(self, name: str) -> Optional[str]:
        """The value of the first header with this name, or `None`, as in `email`."""
        if not isinstance(name, str):
            raise TypeError(f"the name of a header is text, not {type(name).__name__}")
        return self.header(name)

    def __contains__(self, name: object) -> bool:
        return isinstance(name, str) and self.header(name) is not None

    @overload
    def get_all(self, name: str) -> Optional[List[str]]: ...

    @overload
    def get_all(self, name: str, failobj: Default) -> Union[List[str], Default]: ...

    def get_all(self, name: str, failobj: Any = None) -> Any:
        """The values of all headers with this name, or `failobj` if there are none, as in `email`.

        >>> mail = parse(b"Received: one\\nSubject: Hi\\nReceived: two\\n\\n")
        >>> mail["subject"], mail["Date"], mail.get_all("received"), mail.get_all("Date", [])
        ('Hi', None, ['one', 'two'], [])
        """
        key = _library.name_of(name)
        return (self._reading.values(0, key) if key is not None else []) or failobj

    @property
    def _own_nodes(self) -> List[Node]:
        """The mail itself and its parts."""
        own = self._own
        if own is None:
            own = self._own = self._reading.nodes(Node, "", 0)
        return own

    @property
    def _nodes(self) -> List[Node]:
        """The mail itself and its parts, and then those of the mails inside it."""
        nodes = self._all
        if nodes is None:
            nodes = self._own_nodes.copy()
            if any(node.flags & IS_MAIL for node in nodes):
                add_inside(nodes, self._own_nodes, self._limit)
            self._all = nodes
        return nodes

    def _part(self, index: int) -> Part:
        """The part with this index, which counts those of the mails inside too."""
        own = self._own_nodes
        return Part(self, own[index] if index < len(own) else self._nodes[index])

    def walk(self) -> Iterator[Part]:
        """The mail itself and then its parts, each before its own parts. `forwarded` has the mails inside it.

        >>> raw = b"Content-Type: multipart/mixed; boundary=b\\n\\n--b\\n\\none\\n--b\\n\\ntwo\\n--b--\\n"
        >>> [(part.path, part.content_type, part.text) for part in parse(raw).walk()]
        [('', 'multipart/mixed', None), ('1', 'text/plain', 'one'), ('2', 'text/plain', 'two')]
        """
        for node in self._own_nodes:
            yield Part(self, node)

    def files(self) -> List[Union[Part, TextFile]]:
        """What the program `rocktray extract` saves: the attachments, and all other parts that are not shown as text, such
        as images without a name, forwarded mails and reports; and the uuencoded files in plain texts. Those of the
        forwarded mails follow.

        >>> mail = parse(b"Content-Type: application/pdf\\n\\n%PDF")
        >>> [(file.path, file.extracted_content()) for file in mail.files()], mail.attachments()
        ([('1', b'%PDF')], [])
        """
        files: List[Union[Part, TextFile]] = []
        for node in self._nodes:
            part = Part(self, node)
            if node.flags & IS_EXTRACTED:
                files.append(part)
            else:
                files.extend(part.text_files)
        return files

    def attachments(self) -> List[Part]:
        """The mail's own parts whose disposition is 'attachment' or that have a file name. `files` has more.

        >>> raw = b'Content-Disposition: attachment; filename="a.txt"\\n\\ntext'
        >>> [(file.file_name, file.content) for file in parse(raw).attachments()]
        [('a.txt', b'text')]
        """
        return [Part(self, node) for node in self._own_nodes if node.flags & IS_ATTACHMENT]

    def _text_of(self, content_type: str) -> Optional[str]:
        """The text of the first part of this type that is no attachment, otherwise of the first one with a text."""
        texts = [node for node in self._own_nodes if node.flags & IS_TEXT and _text_type(node.type[0]) == content_type]
        for node in texts:
            if not node.flags & IS_ATTACHMENT:
                return node.text
        return texts[0].text if texts else None

    @property
    def text(self) -> Optional[str]:
        """The plain text of the mail, or `None`."""
        return self._text_of("text/plain")

    @property
    def html(self) -> Optional[str]:
        """The HTML of the mail, or `None`."""
        return self._text_of("text/html")

    def text_or_html(self, links: bool = False) -> Optional[str]:
        """The text to be read: the plain text of the mail, or if it has none or it consists of whitespace, the text of
        its HTML, or `None`. With `links`, each link of HTML has a number, and the targets follow as footnotes.

        >>> parse(b"Content-Type: text/html\\n\\n<p>Fish &amp; <b>chips</b>").text_or_html()
        'Fish & chips'
        """
        self._reading
        return _engine.readable_text(self._data, bool(links))

    def forwarded(self) -> List["Mail"]:
        """The mails that are forwarded in parts of this mail. Each is read when it is first used.

        >>> inside = parse(b"Content-Type: message/rfc822\\n\\nSubject: inside\\n\\n").forwarded()
        >>> inside[0].subject
        'inside'
        """
        return [Mail(Part(self, node).content, limit=self._limit) for node in self._own_nodes if node.flags & IS_MAIL]

    def bounces(self) -> List[Recipient]:
        """The recipients of a delivery report (RFC 3464). The list is empty if the mail is not one.

        >>> raw = b"Content-Type: multipart/report; boundary=b\\n\\n--b\\nContent-Type: message/delivery-status\\n\\n"
        >>> raw += b"Reporting-MTA: dns; mx\\n\\nFinal-Recipient: rfc822; a@b\\nAction: failed\\nStatus: 5.1.1\\n\\n--b--\\n"
        >>> [(one.final_recipient, one.action, one.status) for one in parse(raw).bounces()]
        [('a@b', 'failed', '5.1.1')]
        """
        return self.recipients

    def findings(self) -> List[Finding]:
        """The places at which other programs may read something else, as `rocktray check` lists them, and then those of the
        mails inside: the mail is read once more, strictly. Raises `Refused` if a part is refused there.

        >>> [(it.name, it.class_, it.start, it.end) for it in parse(b"Subject: a\\nSubject: b\\n\\n").findings()]
        [('duplicate', 'structure', 11, 22)]
        """
        self._reading
        return [Finding(*members) for members in _engine.findings(self._data)]

    def to_email(self) -> email.message.EmailMessage:
        """The same mail as Python's `email` reads it, for code that needs an `EmailMessage`."""
        return cast(email.message.EmailMessage, email.message_from_bytes(self.raw, policy=email.policy.default))

    def __eq__(self, other: object) -> bool:
        return isinstance(other, Mail) and self.raw == other.raw

    def __hash__(self) -> int:
        return hash(self.raw)

    def __reduce__(self) -> Tuple[Any, ...]:
        return Mail, (self.raw, self.place, self._limit)

    def __repr__(self) -> str:
        error = self.error
        return f"<rocktray.Mail {self.subject!r}>" if error is None else f"<rocktray.Mail refused: {error}>"


def _text_type(content_type: str) -> str:
    """The type of a text: `text` without a subtype is plain, and so is a multipart that has no parts."""
    return "text/plain" if content_type == "text" or content_type.startswith("multipart") else content_type


def parse(raw: "Bytes", limit: Optional[int] = MOST_ITEMS) -> Mail:
    """Reads a mail. Raises `Refused` if it is refused, `TooMany`, which is a `Refused`, if it has more than `limit` parts
    and headers, and `TypeError` if it is not bytes; else only `MemoryError`. The limit `None` is none.

    >>> parse(b"Subject: Hi\\n\\nHello").subject
    'Hi'
    >>> parse(b"Subject: Hi\\n\\nHello", limit=1)
    Traceback (most recent call last):
        ...
    rocktray.TooMany: Too many parts and headers
    """
    data = raw if isinstance(raw, bytes) else _checked(raw)
    return _engine.parse(Mail, data, UNLIMITED if limit is None else limit)
