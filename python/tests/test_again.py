"""Mailboxes that begin again and are counted, and Maildirs, beside Python's mailbox."""

import io
import mailbox
import multiprocessing.pool
import os
import threading

import pytest

import rocktray

LINE = b"From a Fri Jul  8 12:08:34 2011\n"


def numbered(count):
    return b"".join(LINE + b"Subject: %d\n\n%s\n\n" % (number, b"x" * (number % 7 * 900)) for number in range(count))


@pytest.fixture
def box(tmp_path):
    (tmp_path / "box").write_bytes(numbered(900))
    return tmp_path / "box"


def test_count(box):
    wanted = len(mailbox.mbox(box))
    mails = rocktray.open_mailbox(box)
    assert len(mails) == len(mails) == wanted == 900
    assert next(mails).subject == "0" and len(mails) == 899
    assert len(list(mails)) == 899 and len(mails) == 0
    for format in ("mboxrd", "mboxcl"):
        mails = rocktray.open_mailbox(box, format)
        assert [next(mails).subject for _ in range(500)] == [str(number) for number in range(500)]
        assert len(mails) == 400 == sum(1 for _ in mails)


def test_count_in_a_pool(box):
    """A pool takes the length of what it maps over for the number of results."""
    mails = rocktray.open_mailbox(box)
    next(mails)
    with multiprocessing.pool.ThreadPool(2) as pool:
        assert len(pool.map_async(hash, mails).get(60)) == 899
        assert pool.map_async(hash, mails).get(60) == []


@pytest.mark.parametrize("data, count", [(b"", 0), (b"\n\n", 0), (LINE, 1), (b"junk\n\n" + LINE + b"\n", 1), (LINE + LINE, 1)])
def test_count_of_small_mailboxes(data, count, tmp_path):
    (tmp_path / "box").write_bytes(data)
    mails = rocktray.open_mailbox(tmp_path / "box")
    assert (len(mails), len(list(mails)), len(mails), bool(mails)) == (count, count, 0, True)


def test_rewind(box):
    mails = rocktray.open_mailbox(box)
    first = list(mails)
    assert list(mails) == []
    mails.rewind()
    assert list(mails) == first
    mails.rewind()
    assert next(mails) == first[0]
    mails.rewind()
    assert [mail.place for mail in mails] == [mail.place for mail in first]
    box.write_bytes(numbered(3))
    mails.rewind()
    assert len(mails) == len(list(mails)) == 3


def test_rewind_of_what_is_no_mailbox_now(box):
    mails = rocktray.open_mailbox(box)
    box.write_bytes(b"text\n")
    with pytest.raises(ValueError, match="no line that begins with 'From '"):
        mails.rewind()
    mails = rocktray.open_mailbox(io.BytesIO(b""))
    box.unlink()
    with pytest.raises(io.UnsupportedOperation):
        mails.rewind()


def test_rewind_in_another_directory(box, monkeypatch):
    monkeypatch.chdir(box.parent)
    mails = rocktray.open_mailbox("box")
    monkeypatch.chdir("/")
    mails.rewind()
    assert next(mails).subject == "0"


def test_removed_mailbox(box):
    """The open file is counted and read."""
    mails = rocktray.open_mailbox(box)
    box.unlink()
    assert len(mails) == len(list(mails)) == 900
    with pytest.raises(FileNotFoundError):
        mails.rewind()


def test_streams(box):
    """A pipe and a file object have neither, and are read."""
    end, other = os.pipe()
    os.write(other, numbered(2))
    os.close(other)
    for mails in (rocktray.open_mailbox(io.BytesIO(numbered(2))), rocktray.open_mailbox(f"/dev/fd/{end}")):
        with pytest.raises(TypeError, match="cannot be counted"):
            len(mails)
        with pytest.raises(io.UnsupportedOperation, match="cannot be read again"):
            mails.rewind()
        assert mails and [mail.subject for mail in mails] == ["0", "1"] and len(mails) == 0
    os.close(end)


def test_closed(box):
    mails = rocktray.open_mailbox(box)
    mails.close()
    for call in (mails.rewind, lambda: len(mails)):
        with pytest.raises(ValueError, match="the mailbox is closed"):
            call()


def test_repr(box):
    with rocktray.open_mailbox(box, "mboxrd") as mails:
        assert repr(mails) == f"<rocktray.Mailbox {str(box)!r} mboxrd>"
    assert repr(mails) == f"<rocktray.Mailbox {str(box)!r} mboxrd closed>"
    assert repr(rocktray.open_mailbox(io.BytesIO(b""))) == "<rocktray.Mailbox of a file object mbox>"


def test_threads_that_count(box):
    """Counting beside a loop."""
    mails, counts, found = rocktray.open_mailbox(box), [], []
    threads = [threading.Thread(target=lambda: counts.append(len(mails))) for _ in range(4)]
    threads.append(threading.Thread(target=lambda: found.extend(mail.place for mail in mails)))
    for thread in threads:
        thread.start()
    for thread in threads:
        thread.join()
    assert len(counts) == 4 and all(0 <= count <= 900 for count in counts)
    assert len(found) == len(set(found)) == 900


@pytest.fixture
def maildir(tmp_path):
    """A Maildir of Python's, with flags, a file in tmp and a directory inside."""
    made = mailbox.Maildir(tmp_path / "dir")
    for number in range(20):
        message = mailbox.MaildirMessage(b"Subject: %d\n\nx\n" % number)
        message.set_subdir("cur" if number % 3 else "new")
        message.set_flags("S" if number % 3 == 1 else "")
        made.add(message)
    made.add_folder("Sent").add(b"Subject: sent\n\n")
    (tmp_path / "dir" / "tmp" / "1").write_bytes(b"Subject: unfinished\n\n")
    return tmp_path / "dir"


def test_maildir(maildir):
    wanted = mailbox.Maildir(maildir, create=False)
    mails = rocktray.open_maildir(maildir)
    assert len(mails) == len(wanted) == 20
    for _ in range(2):
        assert sorted(mail.subject for mail in mails) == sorted(message["Subject"] for message in wanted)
    found = dict(mails.items())
    assert list(found) == sorted(found) == mails.paths()
    assert all(mail.raw == open(path, "rb").read() for path, mail in found.items())
    assert [mail.subject for mail in rocktray.open_maildir(str(maildir / ".Sent"))] == ["sent"]
    (maildir / "cur" / ".hidden").write_bytes(b"Subject: hidden\n\n")
    assert len(mails) == len(list(mails)) == 20
    assert repr(mails) == f"<rocktray.Maildir {str(maildir)!r}>"


def test_maildir_that_changes(maildir):
    """Mails that are moved are read, and those that are removed are not."""
    mails = rocktray.open_maildir(maildir)
    items = mails.items()
    found = [next(items)]
    last = mails.paths()[-1]
    os.rename(last, maildir / "cur" / (os.path.basename(last) + ":2,S"))
    os.unlink(mails.paths()[5])
    found += items
    assert len(found) == len(mails) == 19
    assert {path for path, _ in found} == set(mails.paths())


def test_what_is_no_maildir(tmp_path):
    with pytest.raises(ValueError, match="is no Maildir: it has no directory 'cur' or 'new'"):
        rocktray.open_maildir(tmp_path)
    with pytest.raises(FileNotFoundError):
        rocktray.open_maildir(tmp_path / "none")
    with pytest.raises(NotADirectoryError):
        rocktray.open_maildir(__file__)
