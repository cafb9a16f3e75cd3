"""Made mails to measure readers on, and bodies and mailboxes: the same kind and scale give the same bytes. A scale
multiplies the size."""
import base64
import quopri
import random

MB = 1_000_000
SEED = 2046
WORDS = b"the quick brown fox jumps over a lazy dog and comes back again".split()
TEXT = (
    "D\u00e9j\u00e0 vu: the quick brown fox jumps over the lazy dog, and then it walks home along the river. "
    "Gr\u00fc\u00dfe aus K\u00f6ln! 1 + 1 = 2.\nA short line.\n\n"
)


def fill(piece, size):
    """The piece repeated up to that many bytes, whole pieces only."""
    return piece * int(size // len(piece))


def words(rng, count):
    """That many words, with a space between them."""
    return b" ".join(rng.choice(WORDS) for _ in range(count))


def base64_lines(data):
    """Base64 in lines of 76 letters, with CR LF."""
    return base64.encodebytes(data).replace(b"\n", b"\r\n")


def head(rng, number):
    """The headers of a mail, but for its type."""
    return (
        b"From: =?utf-8?Q?Jos=C3=A9_N?= <from%d@example.org>\r\nTo: to@example.org\r\n" % number
        + b"Subject: =?utf-8?B?" + base64.b64encode(words(rng, 5)) + b"?= " + words(rng, 4) + b"\r\n"
        + b"Date: Sun, 2 Oct 2016 07:06:22 -0700\r\nMessage-ID: <%d.mail@example.org>\r\nMIME-Version: 1.0\r\n" % number
    )


def attachment(scale):
    """A mail with a short text and one attachment."""
    rng = random.Random(SEED)
    data = rng.randbytes(int(scale * 20 * MB * 57 // 78))
    return (
        head(rng, 0) + b"Content-Type: multipart/mixed; boundary=\"outer\"\r\n\r\n--outer\r\nContent-Type: text/plain; charset=utf-8\r\n\r\n"
        + words(rng, 100) + b"\r\n--outer\r\nContent-Type: application/octet-stream; name=data\r\n"
        + b"Content-Disposition: attachment; filename=data\r\nContent-Transfer-Encoding: base64\r\n\r\n"
        + base64_lines(data) + b"--outer--\r\n"
    )


def small_mail(rng, number):
    """A mail of 5 kB in three parts: a text in quoted-printable, the same in HTML, an image in Base64."""
    delimiter = b"--b%d\r\n" % number
    lines = b"\r\n".join(words(rng, 12) for _ in range(18))
    return (
        head(rng, number) + b"Content-Type: multipart/alternative; boundary=b%d\r\n\r\n" % number
        + delimiter + b"Content-Type: text/plain; charset=utf-8\r\nContent-Transfer-Encoding: quoted-printable\r\n\r\n"
        + lines.replace(b"again", b"=C3=A9t=C3=A9 =\r\n") + b"\r\n"
        + delimiter + b"Content-Type: text/html; charset=iso-8859-1\r\n\r\n<p>" + lines + b"</p>\r\n"
        + delimiter + b"Content-Type: image/png; name=i.png\r\nContent-Transfer-Encoding: base64\r\n\r\n"
        + base64_lines(rng.randbytes(1500)) + b"--b%d--\r\n" % number
    )


def small(scale):
    """A mail whose parts are small mails."""
    rng = random.Random(SEED)
    parts = [b"--list\r\n" + small_mail(rng, number) for number in range(1, int(scale * 2000) + 1)]
    return head(rng, 0) + b"Content-Type: multipart/digest; boundary=list\r\n\r\n" + b"".join(parts) + b"--list--\r\n"


def mails(scale):
    """Small mails, one after another."""
    rng = random.Random(SEED)
    return (small_mail(rng, number) for number in range(1, int(scale * 2000) + 1))


def mailbox(scale):
    """A mailbox of small mails."""
    return b"".join(b"From a@example.org Sun Oct  2 14:06:22 2016\r\n" + mail + b"\r\n" for mail in mails(scale))


def headers(scale):
    """A mail of headers alone: plain values, folded ones, and encoded words."""
    rng, made, size = random.Random(SEED), [], 0
    while size < scale * 5 * MB:
        kind = rng.randrange(3)
        if kind == 0:
            value = words(rng, 8)
        elif kind == 1:
            value = words(rng, 8) + b"\r\n " + words(rng, 10) + b"\r\n\t" + words(rng, 3)
        else:
            value = b" ".join(b"=?utf-8?B?" + base64.b64encode(words(rng, 6)) + b"?=" for _ in range(3))
        made.append(b"X-Header-%d: " % len(made) + value + b"\r\n")
        size += len(made[-1])
    return b"".join(made) + b"\r\n"


def base64_body(scale):
    """Base64 in lines of 76 letters."""
    return fill(base64_lines(random.Random(SEED).randbytes(57 * 1000)), scale * 20 * MB)


def quoted_text(scale):
    """A text in quoted-printable, with a few escapes and soft line breaks."""
    return fill(quopri.encodestring(TEXT.encode("utf-8")).replace(b"\n", b"\r\n"), scale * 10 * MB)


def quoted_escapes(scale):
    """Quoted-printable of escapes alone, in lines."""
    return fill(b"=C3=A9=E2=82=AC" * 5 + b"=\r\n", scale * 10 * MB)


def quoted(body):
    """A mail with this body in quoted-printable."""
    return b"Content-Transfer-Encoding: quoted-printable\r\n\r\n" + body


def valued(value):
    """A mail of one header with this value."""
    return b"X: " + value + b"\n\n"


def typed(text):
    """A mail of this type; its body is empty."""
    return b"Content-Type: " + text + b"\n\n"


def parts(body, boundary=b"b"):
    """A multipart mail with this boundary and this body."""
    return typed(b"multipart/mixed; boundary=" + boundary) + body


def keys(template, count):
    """A type with that many parameters, numbered by the template."""
    return typed(b"x; " + b"; ".join(template % n for n in range(int(count))))


def stars(size):
    """A type with the keys a*0*, a*0*0*, .. in turn, of this many bytes in all."""
    found, key, total = [], b"a", 0
    while total < size:
        key += b"*0"
        found.append(key + b"*=utf-8''%41")
        total += len(found[-1])
    return typed(b"x; " + b"; ".join(found))


def long_indexes(count):
    """A type with that many sections whose numbers have 100,000 digits."""
    return typed(b"x; " + b"; ".join(b"f*%d%s=a" % (n, b"0" * 100_000) for n in range(1, int(count) + 1)))


def nested(boundaries, body):
    """Multiparts inside one another, one for each boundary, around this body."""
    return b"".join(parts(b"--%s\n" % boundary, boundary) for boundary in boundaries) + b"\n" + body


LEVELS = [b"b%03d" % n for n in range(100)]
PREFIXES = [b"b" * n for n in range(90, 0, -1)]
LINES = b'"=?utf-8?Q?%s?="'

# Of each kind what it is at the scale 1, and how it is made.
KINDS = {
    "attachment": ("a short text and an attachment of 20 MB", attachment),
    "small": ("2,000 mails of 5 kB in one", small),
    "mailbox": ("a mailbox of 2,000 mails of 5 kB", mailbox),
    "headers": ("5 MB of headers: plain values, folded ones, encoded words", headers),
    "quoted-text": ("10 MB of quoted-printable: a text", lambda s: quoted(quoted_text(s))),
    "quoted-escapes": ("10 MB of quoted-printable: escapes alone", lambda s: quoted(quoted_escapes(s))),
    "base64-body": ("the body alone: 20 MB of Base64 in lines of 76 letters", base64_body),
    "padded-body": ("the body alone: 4 MB of Base64, with padding in each group", lambda s: fill(b"aGk=", s * 4 * MB)),
    "text-body": ("the body alone of quoted-text", quoted_text),
    "escapes-body": ("the body alone of quoted-escapes", quoted_escapes),
    "letters": ("a value of 1 MB: one letter", lambda s: valued(fill(b"x", s * MB))),
    "folds": ("a value of 1 MB: folds alone", lambda s: valued(fill(b"\n ", s * MB))),
    "folded-letters": ("a value of 1 MB: a letter, a fold", lambda s: valued(fill(b"a\n ", s * MB))),
    "encoded-words": ("a value of 1 MB: encoded words", lambda s: valued(fill(b"=?utf-8?Q?a?= ", s * MB))),
    "openings": ("a value of 0.25 MB: openings of encoded words", lambda s: valued(fill(b"=? ", s * MB / 4))),
    "broken-words": ("a value of 0.25 MB: encoded words that miss a piece", lambda s: valued(fill(b"=?a?=x ", s * MB / 4))),
    "semicolons": ("a type: 1 MB of semicolons", lambda s: typed(b"x" + fill(b";", s * MB))),
    "quotes": ("a type: 1 MB of quotes", lambda s: typed(b"x;" + fill(b'"', s * MB))),
    "escaped-quotes": ("a type: 1 MB of escaped quotes", lambda s: typed(b"x;" + fill(b'\\"', s * MB))),
    "keys": ("a type: 100,000 parameters", lambda s: keys(b"k%d=v", s * 100_000)),
    "starred-keys": ("a type: 100,000 extended values", lambda s: keys(b"k%d*=utf-8''v", s * 100_000)),
    "continuations": ("a type: 50,000 sections of one value", lambda s: keys(b"f*%d=a", s * 50_000)),
    "starred-continuations": ("a type: 50,000 extended sections of one value", lambda s: keys(b"f*%d*=utf-8''a", s * 50_000)),
    "growing-stars": ("a type: 1 MB of keys a*0*, a*0*0*, ..", lambda s: stars(s * MB)),
    "long-indexes": ("a type: 5 sections whose numbers have 100,000 digits", lambda s: long_indexes(s * 5)),
    "percent-escapes": ("a type: 1 MB of percent escapes", lambda s: typed(b"x; f*=utf-8''" + fill(b"%41", s * MB))),
    "delimiters": ("a body: 4 MB of delimiters", lambda s: parts(fill(b"--b\n", s * 4 * MB))),
    "line-feeds": ("a body: 4 MB of line feeds", lambda s: parts(fill(b"\n", s * 4 * MB))),
    "dashes": ("a body: 4 MB of dashes", lambda s: parts(fill(b"-", s * 4 * MB))),
    "close-delimiters": ("a body: 4 MB of close-delimiters", lambda s: parts(fill(b"--b--\n", s * 4 * MB))),
    "empty-parts": ("a body: 5 MB of empty parts", lambda s: parts(fill(b"--b\n\n", s * 5 * MB))),
    "empty-boundary": ("a body: 1 MB of delimiters of an empty boundary", lambda s: parts(fill(b"--\n", s * MB), b"")),
    "levels": ("100 levels around 1 MB of text", lambda s: nested(LEVELS, fill(b"a line of text\n", s * MB))),
    "prefixes": (
        "90 levels, each boundary the beginning of the one outside it, around 1 MB of delimiters of the 41st",
        lambda s: nested(PREFIXES, fill(b"--" + b"b" * 50 + b"\n", s * MB)),
    ),
    "boundary-of-lines": (
        "an encoded boundary of 200 kB, of lines that begin with two dashes, and 1 MB of such lines",
        lambda s: parts(fill(b"\n--", s * MB), LINES % fill(b"=0A--", s * 200_000)),
    ),
}
