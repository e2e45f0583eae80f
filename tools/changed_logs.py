"""Logs with drawn changes, for the tests of what reads logs."""
import re

PIECES = [b"0", b"1", b"3", b"4", b"7", b"9", b"a", b"f", b"-", b".", b" ", b"\n", b"M", b"H", b"F", b"d", b"i", b"00", b"4294967296", b"<b>", b"end\n"]


def changed(text, draw):
    """A log of `text` with one to three drawn changes: of a byte, a field, a line or the order of two lines."""
    for _ in range(draw.choice((1, 1, 1, 2, 3))):
        text = draw.choice((byte, number, number, value, line_twice, line_dropped, lines_swapped, order_swapped, order_swapped))(text, draw)
    return text


def byte(text, draw):
    at = draw.randrange(len(text))
    return text[:at] + draw.choice(PIECES) + text[at + draw.randrange(3) :]


def of_pattern(text, draw, pattern, make):
    found = list(re.finditer(pattern, text))
    if not found:
        return text
    m = draw.choice(found)
    return text[: m.start()] + make(m[0]) + text[m.end() :]


def number(text, draw):
    """A decimal number becomes a neighbour of it, or another one."""
    def make(old):
        n = int(old)
        return str(draw.choice((n + 1, max(n - 1, 0), 0, 2 * n, draw.randrange(16), draw.choice((128, 256, 4096, 2**32 - 1, 2**32))))).encode()

    return of_pattern(text, draw, rb"(?<= )(?:0|[1-9][0-9]{0,4})(?=[ \n])", make)


def value(text, draw):
    """A digit of a value or an address becomes another."""
    def make(old):
        at = draw.randrange(len(old))
        return old[:at] + draw.choice([bytes([c]) for c in b"0123456789abcdef"]) + old[at + 1 :]

    return of_pattern(text, draw, rb"(?<= )[0-9a-f]{8,64}(?=[ \n])", make)


def lines_of(text):
    return text.split(b"\n")


def line_twice(text, draw):
    lines = lines_of(text)
    at = draw.randrange(len(lines))
    return b"\n".join(lines[: at + 1] + lines[at:])


def line_dropped(text, draw):
    lines = lines_of(text)
    at = draw.randrange(len(lines))
    return b"\n".join(lines[:at] + lines[at + 1 :])


def lines_swapped(text, draw):
    lines = lines_of(text)
    a, b = draw.randrange(len(lines)), draw.randrange(len(lines))
    lines[a], lines[b] = lines[b], lines[a]
    return b"\n".join(lines)


def order_swapped(text, draw):
    """Two neighbouring lines of the order, or two of its lines, change places."""
    lines = lines_of(text)
    places = [k for k, line in enumerate(lines) if line.startswith(b"o ")]
    if len(places) < 2:
        return text
    k = draw.randrange(len(places) - 1)
    a, b = places[k], draw.choice((places[k + 1], draw.choice(places)))
    lines[a], lines[b] = lines[b], lines[a]
    return b"\n".join(lines)
