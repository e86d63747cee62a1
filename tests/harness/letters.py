"""The letters of pictures and of the HTML file: letters.txt of crates/screens has their dots; page/letters.woff2 of
crates/base_pages is the font.

A cell is 6 × 10 dots, drawn as 12 × 20 half dots. If two dots meet at a corner alone, each of the two unlit dots at
that corner gets a half dot there, as a character generator of the SAA5050 kind rounds its letters: so a diagonal is as
thick as an upright. In the font a half dot is one of the em's 20 units; the baseline is below row 7 of the dots.
"""

import io
from collections.abc import Iterable
from pathlib import Path
from typing import Any, NamedTuple

from harness.page_parts import PAGE
from harness.running import has_module

WIDTH, HEIGHT = 6, 10
ASCENT, DESCENT, ADVANCE, EM = 16, 4, 12, 20
TABLE = PAGE.parents[1] / "screens" / "letters.txt"
FONT, SUMS = PAGE / "letters.woff2", PAGE / "letters.sha256"
# the codes that aren't the characters of ASCII
CHARACTERS = {
    **{0x23: "£", 0x5B: "←", 0x5C: "½", 0x5D: "→", 0x5E: "↑", 0x5F: "#", 0x60: "—"},
    **{0x7B: "¼", 0x7C: "‖", 0x7D: "¾", 0x7E: "÷", 0x7F: "■"},
}

Bits = list[list[bool]]
Point = tuple[int, int]


class Letter(NamedTuple):
    name: str
    dots: Bits


def character(code: int) -> str:
    return CHARACTERS.get(code) or chr(code)


def table(path: Path = TABLE) -> dict[int, Letter]:
    """The letters of the codes 20 to 7F."""
    lines = [line for line in path.read_text("utf-8").splitlines() if line and not line.startswith(";")]
    found: dict[int, Letter] = {}
    for at in range(0, len(lines), HEIGHT + 1):
        code, name = lines[at].split(" ", 1)
        rows = lines[at + 1 : at + 1 + HEIGHT]
        if len(rows) < HEIGHT or any(len(row) != WIDTH or set(row) - set(".#") for row in rows):
            raise ValueError(f"{code}: not {HEIGHT} rows of {WIDTH} dots")
        found[int(code, 16)] = Letter(name, [[dot == "#" for dot in row] for row in rows])
    if list(found) != list(range(0x20, 0x80)):
        raise ValueError("the codes aren't 20 to 7F")
    return found


def rounded(dots: Bits) -> Bits:
    """20 rows of 12 half dots."""

    def is_lit(row: int, column: int) -> bool:
        return 0 <= row < HEIGHT and 0 <= column < WIDTH and dots[row][column]

    def is_half(y: int, x: int) -> bool:
        row, column = y // 2, x // 2
        up, side = row + 2 * (y % 2) - 1, column + 2 * (x % 2) - 1
        return is_lit(up, column) and is_lit(row, side) and not is_lit(up, side)

    return [[is_lit(y // 2, x // 2) or is_half(y, x) for x in range(2 * WIDTH)] for y in range(2 * HEIGHT)]


def outlines(bits: Bits) -> list[list[Point]]:
    """The corners of closed outlines, y downwards: outer ones clockwise as seen, holes the other way. If two lit
    squares touch at a corner alone, the outlines part there.
    """

    def is_lit(x: int, y: int) -> bool:
        return 0 <= y < len(bits) and 0 <= x < len(bits[0]) and bits[y][x]

    # a lit square lies to the right of each edge
    edges: dict[Point, list[Point]] = {}
    squares = [(x, y) for y in range(len(bits)) for x in range(len(bits[0])) if bits[y][x]]
    for x, y in squares:
        sides = {
            (x, y - 1): ((x, y), (x + 1, y)),
            (x + 1, y): ((x + 1, y), (x + 1, y + 1)),
            (x, y + 1): ((x + 1, y + 1), (x, y + 1)),
            (x - 1, y): ((x, y + 1), (x, y)),
        }
        for beside, (start, end) in sides.items():
            if not is_lit(*beside):
                edges.setdefault(start, []).append(end)
    found = []
    while edges:
        found.append(outline(edges, min(edges, key=lambda point: (point[1], point[0]))))
    return found


def outline(edges: dict[Point, list[Point]], start: Point) -> list[Point]:
    """The outline from a corner on, whose edges are taken away."""
    at, way, points = start, (0, 0), list[Point]()
    while True:
        # the sharpest turn to the right goes around the same square
        ends = edges[at]
        end = max(ends, key=lambda to: way[0] * (to[1] - at[1]) - way[1] * (to[0] - at[0]))
        ends.remove(end)
        if not ends:
            del edges[at]
        step = end[0] - at[0], end[1] - at[1]
        if step != way:
            points.append(at)
        at, way = end, step
        if at == start and (at not in edges or len(points) > 2 and way[0] == 0):
            return points


def filled(loops: Iterable[list[Point]]) -> Bits:
    """The half dots within outlines, by the winding number at the middle of each."""
    sides = [(p, q) for loop in loops for p, q in zip(loop, loop[1:] + loop[:1]) if p[0] == q[0]]

    def winding(x: int, y: int) -> int:
        over = [(p, q) for p, q in sides if p[0] <= x and min(p[1], q[1]) <= y < max(p[1], q[1])]
        return sum(1 if q[1] < p[1] else -1 for p, q in over)

    return [[winding(x, y) != 0 for x in range(2 * WIDTH)] for y in range(2 * HEIGHT)]


def can_build() -> bool:
    """Whether the modules are here."""
    return has_module("fontTools") and has_module("brotli")


def built(letters: dict[int, Letter]) -> bytes:
    """The font, as woff2."""
    from fontTools.fontBuilder import FontBuilder
    from fontTools.pens.ttGlyphPen import TTGlyphPen

    shapes = {ord(character(code)): outlines(rounded(letter.dots)) for code, letter in letters.items()}
    names = {point: f"u{point:04X}" for point in sorted(shapes)}
    drawn: dict[str, Any] = {".notdef": TTGlyphPen(None).glyph()}
    for point, name in names.items():
        pen = TTGlyphPen(None)
        for loop in shapes[point]:
            pen.moveTo((loop[0][0], ASCENT - loop[0][1]))
            for x, y in loop[1:]:
                pen.lineTo((x, ASCENT - y))
            pen.closePath()
        drawn[name] = pen.glyph()
    lefts = {name: min((x for loop in shapes[point] for x, _ in loop), default=0) for point, name in names.items()}
    builder = FontBuilder(EM, isTTF=True)
    builder.setupGlyphOrder(list(drawn))
    builder.setupCharacterMap(names)
    builder.setupGlyf(drawn)
    builder.setupHorizontalMetrics({name: (ADVANCE, lefts.get(name, 0)) for name in drawn})
    return measured(builder)


def measured(builder: Any) -> bytes:
    """A font with its measures and names, the same bytes each time."""
    builder.setupHorizontalHeader(ascent=ASCENT, descent=-DESCENT, lineGap=0)
    builder.setupNameTable({"familyName": "V", "styleName": "R"}, mac=False)
    measures = {"sTypoAscender": ASCENT, "sTypoDescender": -DESCENT, "sTypoLineGap": 0, "usWinAscent": ASCENT}
    measures |= {"usWinDescent": DESCENT, "sxHeight": 10, "sCapHeight": 14, "xAvgCharWidth": ADVANCE}
    builder.setupOS2(**measures, fsSelection=0x40 | 0x80, version=4)
    builder.setupPost(keepGlyphNames=False, isFixedPitch=1)
    font = builder.font
    font["head"].created = font["head"].modified = 3_000_000_000
    font.recalcTimestamp = False
    font["name"].names = [record for record in font["name"].names if record.nameID in (1, 2)]
    font.flavor = "woff2"
    file = io.BytesIO()
    font.save(file)
    return file.getvalue()


def drawn_in(font: bytes) -> dict[str, Bits]:
    """The half dots of each character that a font draws; of a curve none."""
    from fontTools.pens.recordingPen import RecordingPen
    from fontTools.ttLib import TTFont

    file = TTFont(io.BytesIO(font))
    shapes, found = file.getGlyphSet(), dict[str, Bits]()
    for point, name in file.getBestCmap().items():
        pen, loops = RecordingPen(), list[list[Point]]()
        shapes[name].draw(pen)
        for what, points in pen.value:
            if what == "moveTo":
                loops.append([])
            if what in ("moveTo", "lineTo"):
                loops[-1].append((int(points[0][0]), ASCENT - int(points[0][1])))
        has_curve = any("curve" in what.lower() for what, _ in pen.value)
        found[chr(point)] = [] if has_curve else filled(loops)
    return found


def measures_of(font: bytes) -> list[object]:
    """The em, ascent, descent and gap, and the widths of all letters."""
    from fontTools.ttLib import TTFont

    file = TTFont(io.BytesIO(font))
    head = file["hhea"]
    widths = {width for width, _ in file["hmtx"].metrics.values()}
    return [file["head"].unitsPerEm, head.ascent, head.descent, head.lineGap, widths]
