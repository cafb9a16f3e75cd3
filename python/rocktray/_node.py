"""What was read of a mail's parts, and remembers what was decoded of them."""

from __future__ import annotations

from contextlib import contextmanager
from typing import TYPE_CHECKING, Iterator, List, Tuple

from . import _engine
from ._library import TOO_MANY, Refused

if TYPE_CHECKING:
    from ._library import Bytes

# the numbers of rocktray.h
IDENTITIES = (0, 1, 2)
ENCODINGS = ("7bit", "8bit", "binary", "quoted-printable", "base64", "x-uuencode")
UUENCODE = 5
IS_LEAF, IS_ATTACHMENT, IS_EXTRACTED, IS_TEXT, IS_MAIL = 1, 2, 4, 8, 16
# the most bytes of an encoded body that is decoded for its size, and kept until it is asked for
KEPT = 1 << 20
# how many mails may be inside one another, and the most numbers in the path of a part whose mail is read
LEVELS = 100


class Node(_engine.Node):
    """A part of a mail or of a mail inside it. Mails keep their nodes, and nodes refer to no mail. Its type, file name,
    disposition and text are decoded when they are first asked for.
    """

    __slots__ = ()

    @property
    def size(self) -> Tuple[int, bool]:
        """The number of bytes that can be read of the decoded body, and whether it is damaged."""
        found = self._size
        if found is None:
            length = self.body_end - self.body_start
            if self.encoding in IDENTITIES:
                found = self._size = length, False
            elif length <= KEPT:
                self._body, is_damaged = self.body()
                found = len(self._body), is_damaged
            else:
                found = self._size = self.reading.body_size(self.number)
        return found

    def body(self) -> Tuple[bytes, bool]:
        """What can be read of the decoded body, and whether it is damaged."""
        kept, size = self._body, self._size
        if kept is not None and size is not None:
            self._body = None
            return kept, size[1]
        found, is_damaged = self.reading.body(self.number, size[0] if size else 0)
        self._size = len(found), is_damaged
        return found, is_damaged

    def text_files(self, limit: int) -> List[Tuple[int, int, str, bytes, bool]]:
        """The uuencoded files in the decoded body, among at most this many blocks."""
        if self.encoding not in IDENTITIES:
            return _engine.text_files(self.body()[0], limit)
        with view_of(self.data, self.body_start, self.body_end) as body:
            return _engine.text_files(body, limit)

    def bytes_from(self, start: int) -> bytes:
        """The bytes from an offset up to the end of the part."""
        return bytes_of(self.data, start, self.end)


def bytes_of(data: Bytes, start: int, end: int) -> bytes:
    """These bytes of a mail."""
    if isinstance(data, bytes):
        return data[start:end]
    with view_of(data, start, end) as view:
        return view.tobytes()


@contextmanager
def view_of(data: Bytes, start: int, end: int) -> Iterator[memoryview]:
    """A view of these bytes of a mail."""
    with memoryview(data) as view, view.cast("B") as items:
        if end > len(items):
            raise BufferError("the bytes of the mail became fewer while it was in use")
        with items[start:end] as found:
            yield found


def add_inside(nodes: List[Node], own: List[Node], limit: int, levels: int = LEVELS) -> None:
    """Adds the parts of the mails inside a mail, whose own parts are among the nodes (docs/RULES.md, "Forwarded mails").

    All parts together are at most `limit`.
    """
    for node in own if levels > 0 else ():
        if node.flags & IS_MAIL and node.path.count(".") < LEVELS - 1:
            inside = _inside(node, len(nodes), max(limit - len(nodes), 0))
            if inside:
                inside[0].parent = node.index
                node.children = [inside[0].index]  # not appended, since another thread may do the same
                nodes += inside
                add_inside(nodes, inside, limit, levels - 1)


def _inside(node: Node, first: int, limit: int) -> List[Node]:
    """The parts of the mail that a part forwards; none if that mail is refused."""
    data, start, end, is_encoded = node.data, node.body_start, node.body_end, node.is_encoded
    if node.encoding not in IDENTITIES:
        data, start, is_encoded = node.body()[0], 0, True
        end = len(data)
    try:
        reading = _engine.read(data, start, end, limit)
    except Refused as error:
        if error.number == TOO_MANY:
            raise
        return []
    nodes = reading.nodes(Node, node.path, first)
    for inner in nodes:
        inner.is_encoded = is_encoded
    return nodes
