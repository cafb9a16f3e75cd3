"""Maildirs."""

from __future__ import annotations

import os
from typing import Iterator, List, Optional, Tuple, Union

from ._library import MOST_ITEMS
from ._mail import Mail

_DIRECTORIES = ("new", "cur")


class Maildir:
    """The mails of a Maildir, as `open_maildir` returns it: each loop reads them anew, in the order of their paths, and
    `len` counts them.
    """

    def __init__(self, path: Union[str, "os.PathLike[str]"], limit: Optional[int] = MOST_ITEMS) -> None:
        self._path = os.path.abspath(path)
        self._limit = limit
        if not set(_DIRECTORIES).intersection(os.listdir(self._path)):
            raise ValueError(f"{os.fspath(path)!r} is no Maildir: it has no directory 'cur' or 'new'")

    def paths(self) -> List[str]:
        """The paths of the mails: of the files in `cur` and `new` whose names do not begin with a dot."""
        found = []
        # a mail that another program moves meanwhile goes from `new` to `cur`
        for name in _DIRECTORIES:
            directory = os.path.join(self._path, name)
            if os.path.isdir(directory):
                with os.scandir(directory) as entries:
                    found += [entry.path for entry in entries if not entry.name.startswith(".") and entry.is_file()]
        return sorted(found, key=os.fsencode)

    def items(self) -> Iterator[Tuple[str, Mail]]:
        """The mails with their paths. One that another program moves meanwhile is read where it is then, and one that
        is removed is left out.
        """
        for path in self.paths():
            found: Optional[str] = path
            while found is not None:
                try:
                    with open(found, "rb") as file:
                        yield found, Mail(file.read(), limit=self._limit)
                    break
                except FileNotFoundError:
                    found = self._moved(found)

    def _moved(self, path: str) -> Optional[str]:
        """The path that a mail has now, or `None` if it is gone: the name before the flags stays the same."""
        name = os.path.basename(path).partition(":")[0]
        now = (found for found in self.paths() if os.path.basename(found).partition(":")[0] == name and found != path)
        return next(now, None)

    def __iter__(self) -> Iterator[Mail]:
        return (mail for _, mail in self.items())

    def __len__(self) -> int:
        return len(self.paths())

    def __repr__(self) -> str:
        return f"<rocktray.Maildir {self._path!r}>"


def open_maildir(path: Union[str, "os.PathLike[str]"], limit: Optional[int] = MOST_ITEMS) -> Maildir:
    """The mails of a Maildir: the files in its directories `cur` and `new`. Directories inside it, such as `.Sent`, are
    Maildirs of their own. A mail with more than `limit` parts and headers is refused.

    Raises `ValueError` if the directory has neither of them, and `OSError` if it cannot be read.

    >>> import pathlib, tempfile
    >>> with tempfile.TemporaryDirectory() as path:
    ...     pathlib.Path(path, "new").mkdir()
    ...     _ = pathlib.Path(path, "new", "1").write_bytes(b"Subject: Hi\\n\\n")
    ...     [mail.subject for mail in open_maildir(path)], [name[-5:] for name, _ in open_maildir(path).items()]
    (['Hi'], ['new/1'])
    """
    return Maildir(path, limit)
