"""What pictures of a screen show: the texts of an HTML file, the letters of a single picture, and each unit's colour.

A cell is 12 by 20 units. A letter has 10 rows of 6 dots (letters.txt of crates/screens); a dot is two units wide and
high. As the character generator rounds them, each row of dots is drawn on two lines, of which each looks at the row of
dots next to it: where there a dot begins or ends just beside one of its own, it gets a unit more.
"""

from collections.abc import Iterator
from functools import cache
from itertools import pairwise
from typing import NamedTuple

from harness.letters import character, table
from harness.png import Colour
from second_reading.looks import SPACE, Height, Look, looks

WIDE, HIGH = 12, 20
RGB: list[Colour] = [
    *((0, 0, 0), (255, 0, 0), (0, 255, 0), (255, 255, 0)),
    *((0, 0, 255), (255, 0, 255), (0, 255, 255), (255, 255, 255)),
]
# the units of a cell, row by row
Units = tuple[tuple[bool, ...], ...]
Place = tuple[int, int]


def fill_of(colour: int) -> str:
    return "#" + "".join("f" if part else "0" for part in RGB[colour])


def of_dots(dots: list[list[bool]]) -> Units:
    """The units of rows of dots."""
    words = [sum(0b11 << 2 * (5 - column) for column, dot in enumerate(row) if dot) for row in dots]
    lines = []
    for line in range(HIGH):
        beside = line // 2 + (1 if line % 2 else -1)
        own, other = words[line // 2], words[beside] if 0 <= beside < len(words) else 0
        word = own | own >> 1 & other & ~(other >> 1) | own << 1 & other & ~(other << 1)
        lines.append(tuple(bool(word >> 11 - unit & 1) for unit in range(WIDE)))
    return tuple(lines)


@cache
def letters() -> dict[str, Units]:
    return {character(code): of_dots(letter.dots) for code, letter in table().items()}


def of_blocks(blocks: int, separated: bool) -> Units:
    """The units of a mosaic: blocks 6 wide and 6, 8 and 6 high; separated ones lose a unit on each side."""

    def is_lit(x: int, y: int) -> bool:
        column, part = int(x >= 6), (y >= 6) + (y >= 14)
        top, height = ((0, 6), (6, 8), (14, 6))[part]
        margin = 1 if separated else 0
        is_inside = 6 * column + margin <= x < 6 * column + 6 - margin and top + margin <= y < top + height - margin
        return is_inside and bool(blocks >> (2 * part + column) & 1)

    return tuple(tuple(is_lit(x, y) for x in range(WIDE)) for y in range(HIGH))


@cache
def units(holds: str | int, separated: bool, height: Height) -> Units:
    """The units of a cell that have its foreground."""
    whole = letters()[holds] if isinstance(holds, str) else of_blocks(holds, separated)
    first = HIGH // 2 if height == "lower" else 0
    return whole if height == "single" else tuple(whole[first + y // 2] for y in range(HIGH))


@cache
def lines(look: Look, scale: int) -> list[list[Colour]]:
    """The pixels of a cell, line by line; a unit has as many as the scale says in each direction."""
    seen = look.shown()
    if isinstance(seen, int):
        return [[RGB[seen]] * (WIDE * scale)] * (HIGH * scale)
    inks = RGB[look.background], RGB[look.foreground]
    rows = units(look.holds, look.separated, look.height)
    return [[inks[unit] for unit in row for _ in range(scale)] for row in rows for _ in range(scale)]


def pixels_of(screen: bytes, scale: int) -> Iterator[list[Colour]]:
    """The lines of a screen's picture."""
    for row in looks(screen):
        cells = [lines(look, scale) for look in row]
        for line in range(HIGH * scale):
            yield [pixel for cell in cells for pixel in cell[line]]


class Ink(NamedTuple):
    """In what a path draws letters."""

    fill: str
    flash: bool
    is_double: bool


def letters_of(screen: bytes) -> dict[Ink, dict[Place, Units]]:
    """The letters of each ink, by their rows and columns; halves that are blank are left out."""
    found: dict[Ink, dict[Place, Units]] = {}
    for number, row in enumerate(looks(screen)):
        for column, look in enumerate(row):
            if look.shown() is look and isinstance(look.holds, str):
                ink = Ink(fill_of(look.foreground), look.flash, look.height != "single")
                drawn = units(look.holds, False, look.height)
                found.setdefault(ink, {}).update({(number, column): drawn} if any(map(any, drawn)) else {})
    return {ink: cells for ink, cells in found.items() if cells}


class Text(NamedTuple):
    """Neighbouring characters of a picture in an HTML file, with their attributes, and whether they flash."""

    characters: str | None
    attributes: dict[str, str | None]
    flash: bool


ATTRIBUTES = "x", "y", "textLength", "lengthAdjust", "fill", "transform"


def texts_of(screen: bytes) -> Iterator[Text]:
    """Each run of neighbouring characters."""
    for number, row in enumerate(looks(screen)):
        shown = [look.character() != SPACE and isinstance(look.holds, str) for look in row]
        ends = [at for at, (one, other) in enumerate(pairwise([False, *shown, False])) if one != other]
        for first, last in zip(ends[::2], ends[1::2]):
            look = row[first]
            tall = look.height == "upper"
            attributes = {
                "x": str(12 * first),
                "y": str((10 if tall else 20) * number + 16),
                "textLength": str(12 * (last - first)),
                "lengthAdjust": "spacingAndGlyphs",
                "fill": fill_of(look.foreground),
                "transform": "scale(1 2)" if tall else None,
            }
            yield Text("".join(cell.character() for cell in row[first:last]), attributes, look.flash)
