"""How the cells of a screen look, by the rules of CEPT T/CD 6-1, profile 3.

A screen is 24 rows of 40 codes, 20 to 7F and 80 to 9F. Attributes count from their own cell on (at) or from the next
one on (after). Colours are 0 to 7: black, red, green, yellow, blue, magenta, cyan, white.
"""

from typing import Literal, NamedTuple

ROWS, COLUMNS = 24, 40
SPACE = " "
NOTHING: tuple[str | int, bool] = SPACE, False
Height = Literal["single", "upper", "lower"]
# ASCII, save these
CHARACTERS = {
    0x23: "£", 0x5B: "←", 0x5C: "½", 0x5D: "→", 0x5E: "↑", 0x5F: "#",
    0x60: "—", 0x7B: "¼", 0x7C: "‖", 0x7D: "¾", 0x7E: "÷", 0x7F: "■",
}  # fmt: skip
HALVES = {0: SPACE, 21: "▌", 42: "▐", 63: "█"}


def block_character(blocks: int) -> str:
    """The character of six blocks: U+1FB00 and on leave out those that are in HALVES."""
    if blocks in HALVES:
        return HALVES[blocks]
    return chr(0x1FB00 + blocks - sum(known < blocks for known in HALVES))


class Look(NamedTuple):
    """A cell: a character, or a number of blocks from 1 to 63."""

    holds: str | int
    foreground: int
    background: int
    flash: bool
    concealed: bool
    separated: bool
    height: Height

    def shown(self) -> "int | Look":
        """What one sees: of a concealed or blank cell the background alone."""
        return self.background if self.concealed or self.holds == SPACE else self

    def character(self) -> str:
        """In a text: lower halves are spaces."""
        if self.shown() is not self or self.height == "lower":
            return SPACE
        return self.holds if isinstance(self.holds, str) else block_character(self.holds)

    def beneath(self) -> "Look":
        if self.height == "upper":
            return self._replace(height="lower")
        return self._replace(holds=SPACE, separated=False, height="single")


class Row:
    """The attributes at a place of a row."""

    def __init__(self, has_double_heights: bool) -> None:
        self.has_double_heights = has_double_heights
        self.foreground, self.background = 7, 0
        self.flash = self.concealed = self.mosaics = self.separated = self.hold = self.double = False
        self.held: tuple[str | int, bool] = NOTHING

    def forget(self) -> None:
        self.held = NOTHING

    def to_height(self, double: bool) -> None:
        if self.double != double:
            self.forget()
        self.double = double

    def to_colour(self, colour: int, mosaics: bool) -> None:
        if self.mosaics != mosaics:
            self.forget()
        self.foreground, self.mosaics, self.concealed = colour, mosaics, False

    def at(self, code: int) -> None:
        match code:
            case 0x89:
                self.flash = False
            case 0x8C:
                self.to_height(False)
            case 0x98:
                self.concealed = True
            case 0x99 | 0x9A:
                self.separated = code == 0x9A
            case 0x9C:
                self.background = 0
            case 0x9D:
                self.background = self.foreground
            case 0x9E:
                self.hold = True

    def after(self, code: int) -> None:
        match code:
            case 0x88:
                self.flash = True
            case 0x8D if self.has_double_heights:
                self.to_height(True)
            case 0x9F:
                self.hold = False
            case _ if 0x81 <= code <= 0x87 or 0x91 <= code <= 0x97:
                self.to_colour(code & 7, code >= 0x90)

    def read(self, code: int) -> tuple[str | int, bool]:
        """What a cell that is no attribute holds, and whether it is separated."""
        if not self.mosaics or 0x40 <= code <= 0x5F:
            return CHARACTERS.get(code, chr(code)), False
        blocks = (code & 0x1F) + (code & 0x40) // 2
        self.held = (blocks, self.separated) if blocks else NOTHING
        return self.held

    def cell(self, code: int) -> Look:
        is_attribute = code >= 0x80
        if is_attribute:
            self.at(code)
            holds, separated = self.held if self.mosaics and self.hold else NOTHING
        else:
            holds, separated = self.read(code)
        height: Height = "upper" if self.double else "single"
        look = Look(holds, self.foreground, self.background, self.flash, self.concealed, separated, height)
        if is_attribute:
            self.after(code)
        return look


def looks(cells: bytes, row_type: type[Row] = Row) -> list[list[Look]]:
    """The looks of a screen's 960 codes, row by row. Double height counts in rows 1 to 22."""
    rows: list[list[Look]] = []
    is_covered, above = False, list[Look]()
    for number in range(ROWS):
        codes = cells[COLUMNS * number : COLUMNS * (number + 1)]
        state = row_type(1 <= number <= 22)
        own = [state.cell(code) for code in codes]
        rows.append([look.beneath() for look in above] if is_covered else own)
        is_covered = not is_covered and 1 <= number <= 22 and 0x8D in codes
        above = own
    return rows


def lines_of(rows: list[list[Look]]) -> str:
    return "".join("".join(look.character() for look in row).rstrip(SPACE) + "\n" for row in rows)


def text(cells: bytes) -> str:
    """The form text of a screen."""
    return lines_of(looks(cells))


def revealed(cells: bytes) -> str:
    """The same with all that the screen conceals; empty if that is nothing but spaces."""
    rows = looks(cells)
    if not any(look.concealed and look.holds != SPACE for row in rows for look in row):
        return ""
    return lines_of([[look._replace(concealed=False) for look in row] for row in rows])
