"""Changes of a text, such as every format may meet: of its bytes, words, numbers and lines, and of its length.

Each change takes the random choices of a case and a text of bytes, and gives another text.
"""

import re

# Numbers at which something changes in some format, and their neighbours.
LIMITS = [0, 1, 32, 64, 255, 1_024, 8_192, 16_384, 32_768, 65_536, 100_000, 1_000_000, 5_000_000, 2**31, 2**32, 2**63, 2**64, 10**25]
NUMBERS = [n + step for n in LIMITS for step in (-1, 0, 1) if n + step >= 0]
ODD_BYTES = b'\x00\t\n\r #().,:;=<>|&^+-!*/~_0aZ\x7f\x80\xc3\xa9\xff'
# How long a line or a text may become by repeating a part of it, in bytes.
MOST = 100_000


def number(choose, text):
    """A number becomes one at a limit, its neighbour, or gets a leading zero."""
    places = list(re.finditer(rb'[0-9]+', text))
    if not places:
        return text
    place = choose.choice(places)
    old = place[0]
    near = str(max(0, int(old[:30]) + choose.choice((-1, 1)))).encode()
    new = choose.choice([str(choose.choice(NUMBERS)).encode(), near, b'0' + old])
    return text[:place.start()] + new + text[place.end():]


def cut(choose, text):
    return text[:choose.randrange(len(text) + 1)]


def byte(choose, text):
    """A byte goes, comes, or becomes another."""
    at, new = choose.randrange(len(text) + 1), bytes([choose.choice(ODD_BYTES)])
    return text[:at] + choose.choice([b'', new]) + text[at + choose.randrange(2):]


def word(choose, text):
    """A word goes, comes twice, or becomes another word of the text or another of its bytes."""
    places = list(re.finditer(rb'[^\s]+', text))
    if not places:
        return text
    place = choose.choice(places)
    new = choose.choice([b'', place[0] + b' ' + place[0], choose.choice(places)[0], place[0][::-1], place[0].upper()])
    return text[:place.start()] + new + text[place.end():]


def name(choose, text):
    """A name becomes one as long as names may be, or longer."""
    places = list(re.finditer(rb'[A-Za-z_]\w*', text))
    if not places:
        return text
    old = choose.choice(places)[0]
    new = old[:1] * choose.choice((254, 255, 256, 1_000))
    if choose.randrange(2):
        return re.sub(rb'\b' + re.escape(old) + rb'\b', new, text)
    return text.replace(old, new, 1)


def line(choose, text):
    """A line goes, comes twice or often, or changes places with another."""
    lines = text.splitlines(keepends=True)
    if not lines:
        return text
    at, other = choose.randrange(len(lines)), choose.randrange(len(lines))
    how = choose.randrange(4)
    if how == 0:
        del lines[at]
    elif how == 1:
        lines.insert(other, lines[at])
    elif how == 2:
        lines[at] *= min(choose.choice((2, 64, 65, 300, 5_000)), 1 + MOST // len(lines[at]))
    else:
        lines[at], lines[other] = lines[other], lines[at]
    return b''.join(lines)


def blank(choose, text):
    """The blanks of one sort become others, in one place or in all."""
    old = choose.choice((b' ', b'\n'))
    new = choose.choice((b'', b'  ', b'\t', b'\r\n', b'\n\n', b' \n', b'\n# \xff\n'))
    return text.replace(old, new, choose.choice((1, -1)))


def length(choose, text):
    """The text gets as long as files of one format may be, a byte less or a byte more; larger ones come seldom."""
    most = choose.choice((65_536,) * 20 + (4_194_304, 16_777_216))
    wanted = most + choose.choice((-1, 0, 1)) - len(text)
    return text + choose.choice((b' ', b'\n', b'#', b'a', b'(')) * max(0, wanted)


CHANGES = [number] * 6 + [cut] * 2 + [byte] * 3 + [word] * 4 + [name] + [line] * 4 + [blank] * 2
SELDOM = 150


def changed(choose, text):
    """A text with a few changes, most often one."""
    for _ in range(choose.choice((1, 1, 1, 2, 3))):
        change = length if choose.randrange(SELDOM) == 0 else choose.choice(CHANGES)
        text = change(choose, text)
    return text


def often_changed(choose, text, often=0.6):
    """A text that was changed, in so many cases of one."""
    return changed(choose, text) if choose.random() < often else text
