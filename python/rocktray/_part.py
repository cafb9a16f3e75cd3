"""Parts of mails, and their headers."""

from __future__ import annotations

import re
from typing import TYPE_CHECKING, Any, Dict, List, Optional, Tuple

from . import _engine, _library
from ._library import Refused
from ._node import ENCODINGS, IS_ATTACHMENT, IS_EXTRACTED, IS_LEAF, IS_TEXT, UUENCODE, Node, bytes_of

if TYPE_CHECKING:
    from ._mail import Mail

# the types of the parts with a report
_REPORTS = ("delivery-status", "global-delivery-status", "feedback-report", "disposition-notification")
# an empty line between the blocks of a report
_EMPTY_LINE = re.compile(rb"^\r?\n", re.MULTILINE)
# a byte that is no letter of Base64, and a group with padding
_NO_LETTER = re.compile(rb"[^A-Za-z0-9+/]")
_PADDED = re.compile(rb"[A-Za-z0-9+/]{2}(?:[A-Za-z0-9+/]=|==)")


class Header(_engine.Header):
    """A header of a part: its `name`, its decoded `value`, and its `raw` value.

    A name is without spaces and tabs before the colon.

    >>> mail = parse(b"Subject: =?utf-8?q?caf=C3=A9?=\\r\\n at noon\\r\\n\\r\\n")
    >>> mail.headers[0].name, mail.headers[0].value, mail.headers[0].raw
    ('Subject', 'café at noon', b'=?utf-8?q?caf=C3=A9?=\\r\\n at noon')
    """

    __slots__ = ()

    def __eq__(self, other: object) -> bool:
        return isinstance(other, Header) and (self.name, self.value, self.raw) == (other.name, other.value, other.raw)

    def __hash__(self) -> int:
        return hash((self.name, self.value))

    def __reduce__(self) -> Tuple[Any, ...]:
        return Header, (self.name, self.value, self.raw)

    def __repr__(self) -> str:
        return f"Header({self.name!r}, {self.value!r})"


class Part:
    """A part of a mail, or the mail itself. What it has is decoded when it is first used.

    >>> mail = parse(b"Content-Type: text/html; charset=iso-8859-2\\n\\n<p>\\xb9</p>")
    >>> part = next(mail.walk())
    >>> part.content_type, part.charset, part.content, part.text
    ('text/html', 'iso-8859-2', b'<p>\\xb9</p>', '<p>š</p>')
    """

    __slots__ = ("_mail", "_node")

    def __init__(self, mail: "Mail", node: Node) -> None:
        self._mail = mail
        self._node = node

    @property
    def path(self) -> str:
        """The path, as IMAP numbers parts: '' for a mail with parts, '1' for one without, and then '2.1' and so on."""
        return self._node.path

    @property
    def inside(self) -> Optional[str]:
        """The path of the part with the forwarded mail that this part belongs to, or `None` for the mail's own parts."""
        return self._node.inside

    @property
    def parent(self) -> Optional["Part"]:
        """The part that contains this one: a multipart, or the part with a forwarded mail. `None` for the mail itself."""
        index = self._node.parent
        return None if index is None else self._mail._part(index)

    @property
    def children(self) -> List["Part"]:
        """The parts that this one contains, in order: its own, or the mail that it forwards.

        >>> raw = b"Content-Type: multipart/mixed; boundary=b\\n\\n--b\\nContent-Type: message/rfc822\\n\\nSubject: in\\n\\n--b--\\n"
        >>> forwarding = next(parse(raw).walk()).children[0]
        >>> forwarding.children[0].header("subject"), forwarding.parent.content_type
        ('in', 'multipart/mixed')
        """
        nodes = self._mail._nodes
        return [Part(self._mail, nodes[index]) for index in self._node.children]

    @property
    def content_type(self) -> str:
        """The type in lower case, such as 'text/plain'."""
        return self._node.type[0]

    @property
    def params(self) -> Dict[str, str]:
        """The parameters of the type, by their names in lower case."""
        return dict(self._node.type[2])

    @property
    def charset(self) -> str:
        """The label of the charset, or 'us-ascii' if none is given. `text_charset` is the one that was used."""
        return self._node.type[1]

    @property
    def disposition(self) -> Optional[str]:
        """The disposition in lower case, such as 'attachment', or `None` without that header."""
        name = self._node.disposition
        return self._mail._dispositions[self.path] if name == "" else name

    @property
    def file_name(self) -> Optional[str]:
        """The name of the file as the sender wrote it, or `None`. It may contain slashes: never open it as it is."""
        return self._node.file_name

    @property
    def safe_name(self) -> Optional[str]:
        """The file name made safe for any directory, or `None`: at most 255 bytes, without slashes, control
        characters and those that change the direction of text or are shown as nothing, and neither empty nor '.' nor '..'.

        >>> part = next(parse(b"Content-Type: image/png; name=../../logo.png\\n\\n").walk())
        >>> part.file_name, part.safe_name
        ('../../logo.png', '.._.._logo.png')
        """
        name = self.file_name
        return None if name is None else _engine.safe_name(name)

    @property
    def content_id(self) -> Optional[str]:
        """The id in the first Content-ID, without angle brackets, or `None`. HTML refers to it by `cid:`."""
        found = self._node.reading.ids(self._node.number, b"content-id", False)
        return found[0] if found else None

    @property
    def is_attachment(self) -> bool:
        """Whether the part is an attachment: its disposition is 'attachment', or it has a file name."""
        return bool(self._node.flags & IS_ATTACHMENT)

    @property
    def is_extracted(self) -> bool:
        """Whether the program `rocktray extract` saves the part itself: it is one of `Mail.files`."""
        return bool(self._node.flags & IS_EXTRACTED)

    @property
    def refusal(self) -> Optional[str]:
        """Why the part is plain text without headers: its headers cannot be read, or it is too deep. Otherwise `None`.

        >>> next(parse(b"A: b\\n\\rx").walk()).refusal
        'Headers were followed by an unexpected lone CR character!'
        """
        node = self._node
        return _library.block_refusal(self.raw) if node.start == node.body_start < node.end else None

    @property
    def encoding(self) -> str:
        """The transfer encoding of the body, such as 'base64'. That of each name of uuencode is 'x-uuencode'."""
        return ENCODINGS[self._node.encoding]

    @property
    def start(self) -> Optional[int]:
        """The offset in the mail at which the part begins, or `None` if it is inside an encoded mail."""
        return None if self._node.is_encoded else self._node.start

    @property
    def end(self) -> Optional[int]:
        """The offset in the mail at which the part ends, or `None` if it is inside an encoded mail."""
        return None if self._node.is_encoded else self._node.end

    @property
    def size(self) -> int:
        """The number of bytes of the body in its transfer encoding."""
        return self._node.body_end - self._node.body_start

    @property
    def decoded_size(self) -> Optional[int]:
        """The number of bytes of `content`, or `None` if it is refused."""
        size, is_damaged = self._node.size
        return None if is_damaged else size

    @property
    def headers(self) -> List[Header]:
        """The headers, in order."""
        node = self._node
        headers = node.headers
        if headers is None:
            headers = node.headers = node.reading.headers(node.number, Header)
        return headers.copy()

    def header(self, name: str, number: int = 0) -> Optional[str]:
        """The value of the header with this name and number, counting from 0, or `None`."""
        key = _library.name_of(name)
        return None if key is None or number < 0 else self._node.reading.value(self._node.number, key, number)

    @property
    def raw(self) -> bytes:
        """The part's own bytes, headers and body."""
        return self._node.bytes_from(self._node.start)

    @property
    def content(self) -> bytes:
        """The decoded bytes of the body, without its transfer encoding; of uuencode those of the first file in it. Raises
        `Refused` if it is not valid Base64, or has no whole uuencoded file: `is_damaged` says so before, and
        `extracted_content` has what can be read.
        """
        content, is_damaged = self._node.body()
        if is_damaged and self._node.encoding == UUENCODE:
            raise Refused("The body has no whole uuencoded file", _library.REFUSED)
        if is_damaged:
            raise Refused(f"Base64 decode error: group {self._bad_group()} is no Base64 group", _library.NOT_BASE64)
        return content

    def _bad_group(self) -> int:
        """The number of the first group of four bytes that is not Base64, without ASCII whitespace."""
        body = bytes_of(self._node.data, self._node.body_start, self._node.body_end).translate(None, b"\t\n\f\r ")
        at = 0
        while other := _NO_LETTER.search(body, at):
            at = other.start() // 4 * 4
            if not _PADDED.match(body, at):
                return at // 4
            at += 4
        return len(body) // 4

    def extracted_content(self) -> bytes:
        """The bytes that `rocktray extract` saves: the content, or of a damaged body the bytes that can be read. If the
        body is empty, as that of a multipart without parts, they are all bytes after the headers.

        >>> part = next(parse(b"Content-Type: image/png\\nContent-Transfer-Encoding: base64\\n\\niVBORw0K*").walk())
        >>> part.is_damaged, part.extracted_content()
        (True, b'\\x89PNG\\r\\n')
        """
        node = self._node
        return node.body()[0] if self.size > 0 else node.bytes_from(node.body_start)

    @property
    def text_files(self) -> List["TextFile"]:
        """The uuencoded files in the text of the part, if it is a plain text and not extracted itself.

        >>> part = next(parse(b"\\nHi\\n\\nbegin 644 cat.txt\\n#0V%T\\n`\\nend\\n").walk())
        >>> [(file.path, file.file_name, file.content) for file in part.text_files]
        [('1.u1', 'cat.txt', b'Cat')]
        """
        node = self._node
        if node.flags & (IS_LEAF | IS_EXTRACTED) != IS_LEAF or node.type[0] == "text/html":
            return []
        return [TextFile(self, number, *file) for number, file in enumerate(node.text_files(self._mail._limit), 1)]

    @property
    def report(self) -> Optional[List[List[Tuple[str, str]]]]:
        """The blocks of a delivery status (RFC 3464), feedback report (RFC 5965) or disposition notification (RFC 8098),
        as the names and values of their fields. `None` for any other part. A block that is refused has no fields.

        >>> part = next(parse(b"Content-Type: message/feedback-report\\n\\nFeedback-Type: abuse\\nVersion: 1\\n").walk())
        >>> [dict(block) for block in part.report]
        [{'Feedback-Type': 'abuse', 'Version': '1'}]
        """
        kind, _, name = self.content_type.partition("/")
        blocks = self._node.reading.report(self._node.number) if kind == "message" and name in _REPORTS else None
        if blocks is not None:
            count = sum(1 for block in _EMPTY_LINE.split(self._node.body()[0]) if block)
            blocks += [[] for _ in range(len(blocks), count)]
        return blocks

    @property
    def text(self) -> Optional[str]:
        """The text, if the part is a text and no attachment, otherwise `None`. Of a damaged body it is what can be read."""
        return self._node.text

    def text_of_html(self, links: bool = False) -> Optional[str]:
        """The text of the HTML, if the part is `text/html` and has a text, otherwise `None`. With `links`, each link has a
        number, and the targets follow as footnotes. Nothing here makes HTML safe.

        >>> part = next(parse(b"Content-Type: text/html\\n\\n<p>Fish &amp;<br><a href=x>chips</a>").walk())
        >>> part.text_of_html(), part.text_of_html(links=True)
        ('Fish &\\nchips', 'Fish &\\n[1]chips\\n\\n[1] x')
        """
        html = self.text if self.content_type == "text/html" else None
        return None if html is None else _engine.html_text(html, bool(links))

    @property
    def text_charset(self) -> Optional[str]:
        """The charset in which the text was read, or `None` if there is no text."""
        return self._node.reading.charset(self._node.number) if self._node.flags & IS_TEXT else None

    @property
    def is_damaged(self) -> bool:
        """Whether the body is damaged Base64, or has the encoding uuencode and no whole file in it: `content` is refused,
        and a text is what can be read of it.
        """
        return self._node.size[1]

    def __eq__(self, other: object) -> bool:
        return isinstance(other, Part) and self._mail == other._mail and self._node.index == other._node.index

    def __hash__(self) -> int:
        return hash((self._mail, self._node.index))

    def __reduce__(self) -> Tuple[Any, ...]:
        return _part_of, (self._mail, self._node.index)

    def __repr__(self) -> str:
        return f"<rocktray.Part {self.path!r} {self.content_type}>"


class TextFile:
    """A file in the text of a part, as `uuencode` writes it: mail programs wrote files so before MIME. It has what other
    files of `Mail.files` have, but no headers.

    >>> file = parse(b"\\nbegin 644 ../cat.txt\\n#0V%T\\n").files()[0]
    >>> file.path, file.file_name, file.safe_name, file.extracted_content(), file.is_damaged
    ('1.u1', '../cat.txt', '.._cat.txt', b'Cat', True)
    """

    __slots__ = ("parent", "number", "body_start", "body_end", "file_name", "is_damaged", "_content")

    parent: Part
    """The part in whose text it is."""
    number: int
    """Its number in this text, counted from 1."""
    body_start: int
    """The offset in the decoded body of the part at which its block begins."""
    body_end: int
    """The offset at which its block ends."""
    file_name: str
    """Its name as the sender wrote it. It may contain slashes: never open it as it is."""
    is_damaged: bool
    """Whether no line `end` follows its data, so that bytes may be missing: `content` is refused."""

    def __init__(self, parent: Part, number: int, start: int, end: int, name: str, content: bytes, is_damaged: bool) -> None:
        self.parent, self.number, self.body_start, self.body_end = parent, number, start, end
        self.file_name, self.is_damaged, self._content = name, is_damaged, content

    @property
    def path(self) -> str:
        """The path of the part, `.u` and the number. No part has it."""
        return f"{self.parent.path}.u{self.number}"

    @property
    def inside(self) -> Optional[str]:
        """The path of the part with the forwarded mail that the text belongs to, or `None`."""
        return self.parent.inside

    @property
    def content_type(self) -> str:
        """'application/octet-stream': the file has no type of its own."""
        return "application/octet-stream"

    @property
    def safe_name(self) -> str:
        """The file name made safe for any directory, as `Part.safe_name`."""
        return _engine.safe_name(self.file_name)

    @property
    def decoded_size(self) -> Optional[int]:
        """The number of bytes of `content`, or `None` if it is refused."""
        return None if self.is_damaged else len(self._content)

    @property
    def content(self) -> bytes:
        """The bytes of the file. Raises `Refused` if it is damaged: `extracted_content` has what can be read."""
        if self.is_damaged:
            raise Refused("No line `end` follows the data of the uuencoded file", _library.REFUSED)
        return self._content

    def extracted_content(self) -> bytes:
        """The bytes that `rocktray extract` saves: of a damaged file those that can be read."""
        return self._content

    def _key(self) -> Tuple[Part, int]:
        return self.parent, self.number

    def __eq__(self, other: object) -> bool:
        return isinstance(other, TextFile) and self._key() == other._key()

    def __hash__(self) -> int:
        return hash(self._key())

    def __reduce__(self) -> Tuple[Any, ...]:
        file = self.body_start, self.body_end, self.file_name, self._content, self.is_damaged
        return TextFile, (self.parent, self.number, *file)

    def __repr__(self) -> str:
        return f"<rocktray.TextFile {self.path!r} {self.file_name!r}>"


def _part_of(mail: "Mail", index: int) -> Part:
    """A part of a mail, by its index."""
    return mail._part(index)
