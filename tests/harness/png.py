"""Pictures: what tests/browser and tests/looks look at."""

import struct
import zlib
from collections.abc import Iterator

Colour = tuple[int, ...]


def chunks(png: bytes) -> Iterator[tuple[bytes, bytes]]:
    """The name and the bytes of each chunk."""
    at = 8
    while at < len(png):
        size, name = struct.unpack(">I4s", png[at : at + 8])
        yield name, png[at + 8 : at + 8 + size]
        at += size + 12


def nearest(left: int, up: int, corner: int) -> int:
    """Which of three bytes is nearest to what they let expect, the first of several."""
    to_left, to_up, to_corner = abs(up - corner), abs(left - corner), abs(left + up - 2 * corner)
    if to_left <= to_up and to_left <= to_corner:
        return left
    return up if to_up <= to_corner else corner


def unfiltered(kind: int, line: bytearray, above: bytes, depth: int) -> bytes:
    """The bytes of a line that a kind of filter wrote, after the line above; `depth` is the bytes of a pixel."""
    if kind == 2:
        return bytes((one + up) & 255 for one, up in zip(line, above))
    for i in range(len(line) if kind else 0):
        left, corner = (line[i - depth], above[i - depth]) if i >= depth else (0, 0)
        up = above[i]
        expected = left if kind == 1 else (left + up) // 2 if kind == 3 else nearest(left, up, corner)
        line[i] = (line[i] + expected) & 255
    return bytes(line)


def pixels(png: bytes) -> list[list[Colour]]:
    """The rows of a PNG of 8 bits and three or four channels, each of the colours of its pixels."""
    parts = list(chunks(png))
    width, _, bits, channels = struct.unpack(">IIBB", dict(parts)[b"IHDR"][:10])
    depth, raw = {2: 3, 6: 4}[channels], zlib.decompress(b"".join(data for name, data in parts if name == b"IDAT"))
    if bits != 8:
        raise ValueError(f"{bits} bits a channel")
    length, above, rows = width * depth, bytes(width * depth), []
    for start in range(0, len(raw), length + 1):
        above = unfiltered(raw[start], bytearray(raw[start + 1 : start + 1 + length]), above, depth)
        rows.append([tuple(above[x : x + 3]) for x in range(0, length, depth)])
    return rows
