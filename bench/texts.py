"""Texts in the encodings of several bytes: words of one language, a third of them in ASCII; and HTML as newsletters have it."""

import random

# by label: the codec of Python that writes it, and the first and the last of its characters
CHARSETS = {
    "gbk": ("gbk", 0x4E00, 0x9FA5),
    "gb18030": ("gb18030", 0x4E00, 0x9FA5),
    "big5": ("big5", 0x4E00, 0x9FA5),
    "euc-kr": ("euc_kr", 0xAC00, 0xD7A3),
    "euc-jp": ("euc_jp", 0x3041, 0x9FA5),
    "shift_jis": ("shift_jis", 0x3041, 0x9FA5),
    "iso-2022-jp": ("iso2022_jp", 0x3041, 0x9FA5),
}


def has(codec, character):
    """Whether a codec has a character."""
    try:
        return bool(character.encode(codec))
    except UnicodeEncodeError:
        return False


def text_of(label, size):
    """A text of that many bytes."""
    codec, first, last = CHARSETS[label]
    rng = random.Random(3)
    known = [chr(number) for number in range(first, last + 1) if has(codec, chr(number))]
    words = []
    for _ in range(20_000):
        word = "".join(rng.choice(known) for _ in range(rng.randrange(2, 30)))
        words.append(word if rng.randrange(3) else f"the mail of today, {rng.randrange(10_000)}")
    block = "\n".join(words).encode(codec)
    return (block * (size // len(block) + 1))[:size]


def html_of(size):
    """HTML of about that many bytes: tables with styles, links, images, references and a style sheet."""
    rng = random.Random(5)
    words = "the of our offer week shop price new &amp; free caf&eacute; only&nbsp;now until Sunday delivery &#8212; more".split()
    style = "font-family:Arial,Helvetica,sans-serif;font-size:14px;line-height:20px;color:#333333;padding:0 20px"
    pieces, length = ["<html><head><title>News</title><style>p { margin: 0 }</style></head><body>"], 0
    while length < size:
        text = " ".join(rng.choice(words) for _ in range(rng.randrange(5, 60)))
        link = f'<a href="https://example.org/t/{rng.randrange(1 << 60):x}?u=1&amp;m=2" style="color:#0066cc">{rng.choice(words)}</a>'
        image = f'<img src="https://example.org/i/{rng.randrange(1 << 30):x}.png" width="600" height="40" alt="Offer" border="0">'
        row = f'<tr><td align="left" valign="top" style="{style}">{image}<p style="margin:0 0 10px">{text} {link}</p></td></tr>\n'
        pieces.append(f'<table width="100%" cellpadding="0" cellspacing="0" border="0">{row}</table><!-- row -->\n')
        length += len(pieces[-1])
    return "".join([*pieces, "</body></html>"]).encode()
