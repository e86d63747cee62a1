"""Breaks right texts: bytes are turned, cut, doubled and moved, lines exchanged, numbers pushed to limits."""

import re
from collections.abc import Sequence

from harness.writing import Chance

NUMBERS = [
    *(0, 1, 9, 39, 40, 79, 80, 920, 958, 959, 960, 4_095, 9_999, 10_000, 65_535, 65_536, 999_999_999, 1_000_000_000),
    *(2**31, 2**32, 2**63 - 1, 2**63),
]
# Pieces of any text, of TOML, of a base, and of a certificate.
PIECES = [
    *(b"a", b"z", b"#", b" ", b"\t", b"\n", b"\r\n", b"\r", b"0", b"1", b"_", b"-", b"+", b"?", b"\x00", b"\xff", b"="),
    *(
        b"\xc3\xa9",
        b"\xe2\x82\xac",
        b"\xef\xbb\xbf",
        b'"',
        b"'",
        b'"""',
        b"'''",
        b"\\",
        b"\\\n",
        b"\\e",
        b"\\x41",
        b".",
    ),
    *(
        b",",
        b"},",
        b"[",
        b"]",
        b"{",
        b"}",
        b"0x",
        b"true",
        b"1979-05-27",
        b"\\u001B",
        b"\\u008D",
        b"\\u000C",
        b"\\u00FF",
    ),
    *(b"\\u20ac", b"[[frame]]\n", b"[frame]\n", b"[frame.routes]\n", b"[x]\n", b'id = "1a"\n', b"price = -1\n", b"any"),
    *(b"next = true\n", b"group = 7\n", b"group = 9\n", b"routes.1 = 2\n", b'lead = "keep"\n', b"rows = []\n", b" 9"),
    *(b"s959", b"c39", b"c40", b"PBC1\n", b"PBC2\n", b"groups 7\n", b"groups 7 9\n", b"rows 0\n", b"end\n"),
]


class Breaker(Chance):
    """Breaks texts by one source of chance."""

    def moved(self, data: bytes) -> bytes:
        """A span of the bytes, cut, doubled or moved elsewhere."""
        begin = self.random.randrange(len(data) + 1)
        end = min(len(data), begin + self.pick([1, 1, 2, 4, 16, 64]))
        span, rest = data[begin:end], data[:begin] + data[end:]
        at = self.random.randrange(len(rest) + 1)
        return self.pick([rest, data[:end] + span + data[end:], rest[:at] + span + rest[at:]])

    def turned(self, data: bytes) -> bytes:
        """One byte is another, or a piece is in its place, in that of some more, or before it."""
        at = self.random.randrange(len(data) + 1)
        last = self.pick([at, at + 1, at + self.pick([2, 4, 16])])
        kind = self.random.randrange(4)
        if kind == 0 and at < len(data):
            return data[:at] + bytes([data[at] ^ 1 << self.random.randrange(8)]) + data[at + 1 :]
        if kind == 1 and at < len(data):
            return data[:at] + bytes([self.random.randrange(256)]) + data[at + 1 :]
        return data[:at] + self.pick(PIECES) + data[last:]

    def exchanged(self, data: bytes) -> bytes:
        """Two lines are exchanged, or one is left out or comes twice."""
        lines = data.splitlines(keepends=True) or [b""]
        one, other = self.random.randrange(len(lines)), self.random.randrange(len(lines))
        kind = self.random.randrange(3)
        if kind == 0:
            lines[one], lines[other] = lines[other], lines[one]
        elif kind == 1:
            del lines[one]
        else:
            lines.insert(other, lines[one])
        return b"".join(lines)

    def pushed(self, data: bytes) -> bytes:
        """A number is another."""
        places = list(re.finditer(rb"\d+", data))
        if not places:
            return data
        place = self.pick(places)
        value = int(place.group()[:18])
        number = self.pick([*NUMBERS, value + 1, max(0, value - 1)])
        return data[: place.start()] + str(number).encode() + data[place.end() :]

    def broken(self, data: bytes, counts: Sequence[int]) -> bytes:
        """The text after one of these counts of changes."""
        for _ in range(self.pick(counts)):
            data = self.pick([self.moved, self.turned, self.turned, self.exchanged, self.pushed])(data)
        return data
