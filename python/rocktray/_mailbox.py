"""Mailboxes."""

from __future__ import annotations

import io
import os
import re
import stat
import threading
from bisect import bisect_right
from collections import deque
from itertools import islice
from types import TracebackType
from typing import Any, Deque, Iterator, List, NamedTuple, Optional, Protocol, Tuple, Type, Union

from . import _engine, _library
from ._library import MOST_ITEMS, UNLIMITED
from ._mail import Mail

FORMATS = ("mbox", "mboxrd", "mboxcl")
# the least number of bytes that are read at once
BLOCK = 1 << 20
# the greatest number of mails that are found at once
MOST = _library.MOST
# the greatest number of mails that are read at once, and of their bytes, unless one mail has more
AHEAD = 256
AHEAD_BYTES = 1 << 19
# how many batches of mails may share the bytes that were read with mails that are still in use
SHARED = 8
# what may be between a header block and a body and between mails, whose separator counts up to 1,000 bytes, and one byte
SEPARATOR = 4 + 2 + 1000 + 1
# how compressed files begin, and what opens them as a file of bytes
_COMPRESSED = (
    (b"\x1f\x8b", "gzip", "gzip.open(path)"),
    (b"\xfd7zXZ\x00", "xz", "lzma.open(path)"),
    (b"BZh", "bzip2", "bz2.open(path)"),
    (b"(\xb5/\xfd", "zstd", "compression.zstd.open(path), from Python 3.14"),
    (b"PK\x03\x04", "zip", "zipfile.ZipFile(path).open(name)"),
)
_LONGEST_START = 6
_HEADER = re.compile(rb"[!-9;-~]+[ \t]*:")
_COUNT = re.compile(rb"content-length:\s*([0-9]{1,9})(?![0-9])")


class Readable(Protocol):
    """A file object open for reading bytes."""

    def read(self, size: int, /) -> bytes: ...


class _File:
    """The bytes of a regular file: as many as it had when it was opened. It has no position that a fork would share."""

    def __init__(self, file: Any, size: int) -> None:
        self._file = file
        self.size = size
        self.store = _engine.Store()

    def is_shortened(self) -> bool:
        """Whether another program has shortened the file."""
        return os.fstat(self._file.fileno()).st_size < self.size

    def read_on(self, window: "_Window") -> Tuple[bytes, int, bool]:
        """The bytes from the next mail of a window on: those that are left of it, and at least as many more if the file
        has them. Also their last separator, and whether the file ends there.
        """
        start, left = window.start + window.at, len(window.data) - window.at
        # few sizes, so that blocks are used again
        count = max(1, -(-2 * left // BLOCK)) * BLOCK
        # what is left is read again, which is faster than copying all
        data, separator = self.store.read(self._file.fileno(), min(count, self.size - start), start)
        if len(data) <= left:
            from mailbox import ExternalClashError  # here, since it imports much

            name, size = self._file.name, os.fstat(self._file.fileno()).st_size
            raise ExternalClashError(f"{name!r} was shortened while it was read: from {self.size} bytes to {size}")
        return data, separator, start + len(data) == self.size


class _Stream:
    """The bytes of a pipe or of a file object, from its position on."""

    def __init__(self, file: Any) -> None:
        self._read = getattr(file, "read1", file.read)
        self.store = _engine.Store()

    def read_on(self, window: "_Window") -> Tuple[bytes, int, bool]:
        """The same as `_File.read_on`."""
        left = window.data[window.at :]
        pieces, wanted = [left], max(_LONGEST_START, len(left))
        while wanted > 0:
            data = self._read(max(BLOCK, wanted))
            if not isinstance(data, bytes):
                kind = type(data).__name__
                raise TypeError(f"read() returned {kind}, not bytes: open the file in binary mode ('rb')")
            if not data:
                break
            pieces.append(data)
            wanted -= len(data)
        data = b"".join(pieces)
        return data, _engine.last_separator(data), wanted > 0


def _reader_of(file: Any) -> Union[_File, _Stream]:
    """The reader of a file that was opened: some files of /proc and all pipes have no size."""
    status = os.fstat(file.fileno())
    return _File(file, status.st_size) if stat.S_ISREG(status.st_mode) and status.st_size > 0 else _Stream(file)


class _Window(NamedTuple):
    """What was read of a mailbox. A new one replaces it, so that an exception in between does no harm."""

    start: int
    """The offset of the bytes in the mailbox."""
    data: bytes
    at: int
    """Where the next mail begins in the bytes."""
    last: int
    """The last offset at which a separator ends a mail that no further bytes change: its line and one more byte were
    read. At the end of the mailbox it is the length of the bytes.
    """
    separator: int = 0
    """The last separator that is before it and after an empty line, or 0."""


# whole mails that were read and not yet found: the bytes with them, the offset of these, where the first mail begins, and
# where the last one ends
_Found = Tuple[bytes, int, int, int]


class Mailbox(_engine.Mails):
    """The mails of a mailbox, as `open_mailbox` returns it: an iterator, and a context manager that closes the file.

    As with a file, a second loop goes on where the first ended, and `rewind` begins again. `len` counts the mails that a
    loop would return. Both raise an error for a pipe and a file object. Several threads may iterate over it: each mail
    goes to one of them.
    """

    def __init__(
        self, path: Union[str, "os.PathLike[str]", Readable], format: str = "mbox", limit: Optional[int] = MOST_ITEMS
    ) -> None:
        if format not in FORMATS:
            raise ValueError(f"{format!r} is none of {', '.join(FORMATS)}")
        self._format = format
        self._limit = UNLIMITED if limit is None else limit
        self._use = _engine.Use()
        self._is_counted = format == "mboxcl"
        self._is_quoted = format == "mboxrd"
        # reentrant, for the handler of a signal that closes the mailbox
        self._lock = threading.RLock()
        self._found: Deque[_Found] = deque()
        # those that threads read
        self._taken: List[_Found] = []
        # batches whose mails share bytes
        self._batches: Deque[_engine.Batch] = deque()
        # mails that were read ahead, of which the last is the next
        self._ahead: List[Mail] = []
        # the path of a regular file
        self._path: Any = None
        self._file: Any = None
        if hasattr(path, "read"):
            self._name = getattr(path, "name", None)
            self._begin(_Stream(path))
        else:
            self._file = open(path, "rb", buffering=0)
            self._name = self._file.name
            if isinstance(self._name, (str, bytes)) and stat.S_ISREG(os.fstat(self._file.fileno()).st_mode):
                self._path = os.path.abspath(self._name)
            self._begin(_reader_of(self._file))

    def _begin(self, reader: Union[_File, _Stream]) -> None:
        """Begins to read. Raises `ValueError` if the input is no mailbox."""
        self._reader = reader
        self._found.clear()
        self._taken = []
        self._ahead.clear()
        self._detach(0)
        # the number of mails that were found, and of all if it is known
        self._seen = 0
        self._total: Optional[int] = None
        self._window: Optional[_Window] = _Window(0, b"", 0, -1)
        try:
            self._check(repr(self._name) if isinstance(self._name, (str, bytes)) else "the input")
        except BaseException:
            self.close()
            raise

    def _check(self, name: str) -> None:
        """Reads up to the first separator. Raises `ValueError` if the input is no mailbox."""
        data = self._read_on().data
        for start, kind, opener in _COMPRESSED:
            if data.startswith(start):
                raise ValueError(f"{name} is compressed by {kind}: unpack it, or use open_mailbox({opener})")
        while True:
            window = self._open_window()
            first = next(_library.mails_of(window.data, 0, len(window.data), self._is_counted), None)
            if window.last == len(window.data) or (first and first[0] < len(window.data)):
                break
            self._read_on()
        if first is None:
            _check_front(name, window.data)
            self._total = 0

    def _open_window(self) -> _Window:
        """What was read. Raises `ValueError` if the mailbox is closed."""
        if self._window is None:
            raise ValueError("the mailbox is closed")
        return self._window

    def _read_on(self) -> _Window:
        """Reads on: at least as many bytes as are left, so that all calls together take linear time."""
        window = _next_window(self._open_window(), self._reader)
        self._open_window()  # the handler of a signal may have closed it
        self._window = window
        return window

    def _find(self) -> bool:
        """Reads some whole mails, unless there are some. Returns whether there are any. Raises `ValueError` if the mailbox
        is closed.
        """
        window = self._open_window()
        while not self._found:
            end = _end_of_whole(window, self._is_counted)
            if end > window.at:
                self._found.append((window.data, window.start, window.at, end))
                window = window._replace(at=end)
                self._open_window()
                self._window = window
            elif window.last == len(window.data):
                self._total = self._seen + _count_found(self._taken, self._is_counted)
                self._release(_Window(window.start + window.at, b"", 0, 0))
                self._detach(0)
                return False
            else:
                window = self._read_on()
        return True

    def _read_ahead(self) -> bool:
        """Reads some mails ahead. Returns whether there may be more. Raises `ValueError` if the mailbox is closed."""
        with self._lock:
            if not self._find():
                return False
            some, most = self._found.popleft(), AHEAD if self._seen else 1
            reader = self._reader
            self._taken.append(some)
        try:
            mails, batch, after = self._mails_of(some, most, reader)
        except BaseException:
            self._give_back(some, some[2], reader)
            raise
        with self._lock:
            self._give_back(some, after, reader)
            self._open_window()
            if self._reader is reader:
                self._seen += len(mails)
                self._ahead[:0] = mails
                self._batches.append(batch)
                self._detach(SHARED)
        return True

    def _give_back(self, some: "_Found", at: int, reader: Union[_File, _Stream]) -> None:
        """Gives back those mails from an offset on that were taken from this reader."""
        with self._lock:
            self._taken = [one for one in self._taken if one is not some]
            if self._reader is reader and self._window is not None and at < some[3]:
                self._found.appendleft((some[0], some[1], at, some[3]))

    def _detach(self, count: int) -> None:
        """Lets no more than the last batches share the bytes that were read."""
        while len(self._batches) > count:
            self._batches.popleft().detach()

    def _mails_of(
        self, some: "_Found", most: int, reader: Union[_File, _Stream]
    ) -> Tuple[List[Mail], _engine.Batch, int]:
        """At most `most` of these mails, from the last to the first, their batch, and where the next one begins. They are
        found and read together, so that Python's lock is free for long.
        """
        mails, batch, after = _engine.read_mails(
            Mail, some, self._limit, self._use, self._is_counted, most, AHEAD_BYTES, reader.store
        )
        if self._is_quoted:
            mails = [self._unquoted(mail) if b">From " in mail.raw else mail for mail in mails]
        return mails, batch, after

    def _unquoted(self, mail: Mail) -> Mail:
        """The mail without the quotes of its lines `From `."""
        return Mail(_engine.unquoted(mail.raw), mail.place, self._limit)

    def __len__(self) -> int:
        """The number of mails that a loop would return now: at first all. It is found by reading the file, once. Raises
        `TypeError` for a pipe and a file object.
        """
        file, size = None, 0
        with self._lock:
            window, reader, seen = self._open_window(), self._reader, self._seen
            found = [*self._taken, *self._found]
            if self._total is None:
                if not isinstance(reader, _File):
                    raise TypeError("the mails of a pipe or a file object cannot be counted before they are read")
                file, size = os.fdopen(os.dup(self._file.fileno()), "rb", buffering=0), reader.size
        total = None
        if file is not None:
            with file:
                total = seen + _count_found(found, self._is_counted) + _count(window, _File(file, size), self._is_counted)
        with self._lock:
            if total is not None and self._reader is reader:
                self._total = total
            return max(0, (self._total or 0) - self._seen) + len(self._ahead)

    def __bool__(self) -> bool:
        return True

    def rewind(self) -> None:
        """Opens the file again, so that the next mail is the first. Raises `io.UnsupportedOperation` for a pipe and a
        file object, and otherwise what `open_mailbox` raises.

        >>> import os, tempfile
        >>> with tempfile.NamedTemporaryFile(delete=False) as file:
        ...     _ = file.write(b"From a Fri Jul  8 12:08:34 2011\\nSubject: 1\\n\\n")
        >>> box = open_mailbox(file.name)
        >>> first = [mail.subject for mail in box]
        >>> box.rewind()
        >>> len(box), first == [mail.subject for mail in box]
        (1, True)
        >>> os.unlink(file.name)
        """
        with self._lock:
            self._open_window()
            if self._path is None:
                raise io.UnsupportedOperation("a pipe or a file object cannot be read again: open another mailbox")
            file = open(self._path, "rb", buffering=0)
            self._file.close()
            self._file = file
            self._begin(_reader_of(file))

    def _release(self, window: Optional[_Window]) -> None:
        """Closes the file that was opened for the mailbox, and leaves this window."""
        self._window = window
        self._reader.store.close()
        if self._file is not None:
            self._file.close()

    def close(self) -> None:
        """Closes the file; one that was given stays open. To read on then raises `ValueError`, in every thread."""
        with self._lock:
            self._release(None)
            self._found.clear()
            self._ahead.clear()
            self._detach(0)

    def __del__(self) -> None:
        if getattr(self, "_file", None) is not None:
            self._file.close()
        for batch in getattr(self, "_batches", ()):
            batch.detach()

    def __repr__(self) -> str:
        name = repr(self._name) if isinstance(self._name, (str, bytes)) else "of a file object"
        return f"<rocktray.Mailbox {name} {self._format}{' closed' if self._window is None else ''}>"

    def __enter__(self) -> "Mailbox":
        return self

    def __exit__(
        self, kind: Optional[Type[BaseException]], error: Optional[BaseException], trace: Optional[TracebackType]
    ) -> None:
        self.close()


def _check_front(name: str, data: bytes) -> None:
    """Raises `ValueError` if bytes without a separator are a single mail, or no text of a mailbox."""
    if _HEADER.match(data):
        raise ValueError(f"{name} is a single mail and no mailbox: use parse(pathlib.Path(..).read_bytes())")
    if data.strip() and not data.startswith(b"From ") and b"\nFrom " not in data:
        raise ValueError(f"{name} is no mailbox: it has no line that begins with 'From '")


def _next_window(window: _Window, reader: Union[_File, _Stream]) -> _Window:
    """The bytes from the next mail on, and at least as many more."""
    data, separator, is_last = reader.read_on(window)
    last = len(data) if is_last else data.rfind(b"\n", 0, -1)
    return _Window(window.start + window.at, data, 0, last, separator)


def _count_found(found: List[_Found], is_counted: bool) -> int:
    """The number of these mails."""
    return sum(1 for data, _, at, end in found for _ in _library.mails_of(data, at, end, is_counted))


def _count(window: _Window, reader: _File, is_counted: bool) -> int:
    """The number of the next mails of a file: all, or if another program shortened it, those that were read."""
    count = 0
    while True:
        while places := _settled(window, is_counted):
            count += len(places)
            window = window._replace(at=places[-1][2])
        if window.last == len(window.data) or reader.is_shortened():
            return count
        window = _next_window(window, reader)


def _settled(window: _Window, is_counted: bool) -> List[Tuple[int, int, int]]:
    """The offsets of the next mails that no further bytes change, but of at most `MOST`."""
    data, found = window.data, []
    needs_count = is_counted and window.last < len(data)
    for mail in islice(_library.mails_of(data, window.at, window.last, is_counted), MOST):
        if needs_count and not _is_count_known(data, mail[0], mail[2]):
            break
        found.append(mail)
    return found


def _end_of_whole(window: _Window, is_counted: bool) -> int:
    """Where the last of some next mails ends that no further bytes change, or their start if there are none."""
    if is_counted:
        places = _settled(window, is_counted)
        return places[-1][2] if places else window.at
    return window.last if window.last == len(window.data) else max(window.at, window.separator)


def _is_count_known(data: bytes, start: int, after: int) -> bool:
    """Whether the bytes decide where a Content-Length ends the mail at `start`, which has a separator after it.
    The library decides it: here each number that may be the one has to be followed by enough bytes.
    """
    # the block ends there, or earlier if the lines of the mail end otherwise than that of its separator
    end = data.find(b"\n\r\n" if data[start - 2] == 13 else b"\n\n", start - 1, after)
    block = data[start : after if end < 0 else end].lower()
    if b"content-length:" not in block:
        return True
    return start + len(block) + max(map(int, _COUNT.findall(block)), default=0) + SEPARATOR <= len(data)


def open_mailbox(
    path: Union[str, "os.PathLike[str]", Readable], format: str = "mbox", limit: Optional[int] = MOST_ITEMS
) -> Mailbox:
    """The mails of a mailbox, one after another, each read when it is first used.

    `path` may also be that of a pipe, or a file object open for reading bytes, such as `gzip.open(path)`. It is read in
    blocks, so that only the largest mail has to fit into memory. `format` is 'mbox' (RFC 4155), 'mboxrd', or 'mboxcl'
    for a mailbox whose mails have a Content-Length. A mail that is refused, also for more than `limit` parts and headers,
    is there too: its `error` says why, and everything else about it raises `Refused`, so a loop begins with
    `if mail.error: continue`.

    Raises `ValueError` if the input is compressed, a single mail or no mailbox at all, and `OSError` if it cannot be
    read. If another program shortens the file meanwhile, the mails up to there are returned, and then
    `mailbox.ExternalClashError` is raised.

    >>> import os, tempfile
    >>> with tempfile.NamedTemporaryFile(delete=False) as file:
    ...     _ = file.write(b"From a Fri Jul  8 12:08:34 2011\\nSubject: 1\\n\\nFrom b Fri Jul  8 12:09:34 2011\\nSubject: 2\\n")
    >>> [mail.subject for mail in open_mailbox(file.name)]
    ['1', '2']
    >>> os.unlink(file.name)
    """
    return Mailbox(path, format, limit)
