"""Every fault of a base's text, in the order of judging; and of a text without a fault the base."""

import re
import tomllib
from collections.abc import Iterable, Iterator
from functools import lru_cache
from typing import NamedTuple, TypedDict, cast

from .base import DIGITS, MOST_BYTES, MOST_GROUP, MOST_LISTED, MOST_PAGE, Base, Frame, FrameId, Refused, id_in
from .places import Piece, What
from .toml import Table, fits_64_bits, is_integer, parsed
from .words import code, kind, number_of, quoted

TOP_KEYS = ["entry", "outside", "frame"]
FRAME_KEYS = ["id", "price", "group", "next", "routes", "lead", "body", "rows"]
MOST_BODY = 4_096
MOST_ROWS = 22
MOST_FAULTS = 1_000
MOST_CODES = 10


class FrameTable(TypedDict, total=False):
    """The table of a frame without a fault."""

    id: str
    price: int
    group: int
    next: bool
    routes: dict[str, int]
    lead: str
    body: str
    rows: list[str]


class BaseTable(TypedDict, total=False):
    """The tree of a text without a fault."""

    entry: int
    outside: list[int]
    frame: list[FrameTable]


class Fault(NamedTuple):
    """A fault of the text: its code and name, the field, id or page that a refusal names, the words of `lint`, and what
    is at fault.

    Some words end with the line of another frame.
    """

    name: str
    about: object
    words: str
    piece: Piece
    first: int | None = None

    @property
    def refusal(self) -> str:
        """What a command says that doesn't read a base with this fault."""
        where = "" if self.piece.frame is None or self.name[0] == "B" else f"frame {self.piece.frame}: "
        return f"base: {where}{self.name} {self.about}".rstrip()


def wrong_kind(piece: Piece, here: str, value: object, needed: str) -> Fault:
    return Fault("X5 WrongKind", piece.keys[0], f"{here} is {kind(value)}, {needed} is needed", piece)


def out_of_range(piece: Piece, words: str) -> Fault:
    return Fault("X6 Range", piece.keys[0], words, piece)


def number_faults(piece: Piece, here: str, value: object, least: int, most: int) -> Iterator[Fault]:
    if not is_integer(value):
        yield wrong_kind(piece, here, value, "a whole number")
    elif value < least:
        yield out_of_range(piece, f"{here} is {value}, at least {least} is needed")
    elif value > most:
        yield out_of_range(piece, f"{here} is {value}, at most {most} is allowed")


def unknown_keys(
    table: Table, known: Iterable[str], frame: int | None, outer: tuple[str, ...], words: str
) -> Iterator[Fault]:
    for key in sorted(set(table) - set(known), key=str.encode):
        piece = Piece(What.KEY, frame, (*outer, key))
        yield Fault("X3 UnknownKey", "", f"{quoted(key)} is not a key of {words}", piece)


def top_faults(tree: Table) -> Iterator[Fault]:
    yield from unknown_keys(tree, TOP_KEYS, None, (), "a base")
    if "entry" in tree:
        yield from number_faults(Piece(What.VALUE, None, ("entry",)), '"entry"', tree["entry"], 0, MOST_PAGE)
    else:
        yield Fault("X4 Absent", "entry", 'the base has no "entry"', Piece(What.LINE_ONE))
    outside, whole = tree.get("outside", []), Piece(What.VALUE, None, ("outside",))
    if not isinstance(outside, list):
        yield wrong_kind(whole, '"outside"', outside, "a list of whole numbers")
    for index, page in enumerate(outside if isinstance(outside, list) else []):
        piece = whole._replace(indexes=(index,))
        yield from number_faults(piece, f'item {index + 1:,} of "outside"', page, 0, MOST_PAGE)
    if not isinstance(frames := tree.get("frame", []), list):
        yield wrong_kind(Piece(What.VALUE, None, ("frame",)), '"frame"', frames, "an array of tables")


def name_of(table: object) -> str:
    """A frame by its id, if that can be read."""
    id = table.get("id") if isinstance(table, dict) else None
    return f"frame {id}" if isinstance(id, str) and id_in(id) else "this frame"


class FrameJudge:
    """Judges the table of a frame."""

    def __init__(self, index: int, table: Table) -> None:
        self.index, self.table, self.name = index, table, name_of(table)
        self.header = Piece(What.HEADER, index)

    def piece(self, *keys: str, what: What = What.VALUE) -> Piece:
        return Piece(what, self.index, keys)

    def wrong_kind(self, key: str, needed: str) -> Fault:
        return wrong_kind(self.piece(key), f'"{key}" of {self.name}', self.table[key], needed)

    def faults(self) -> Iterator[Fault]:
        """Each fault in the order of judging."""
        table = self.table
        yield from unknown_keys(table, FRAME_KEYS, self.index, (), "a frame")
        yield from self.id_faults()
        yield from number_faults(self.piece("price"), f'"price" of {self.name}', table.get("price", 0), 0, 9_999)
        yield from number_faults(self.piece("group"), f'"group" of {self.name}', table.get("group", 1), 1, MOST_GROUP)
        if not isinstance(table.get("next", False), bool):
            yield self.wrong_kind("next", "true or false")
        yield from self.route_faults()
        yield from self.lead_faults()
        yield from self.text_faults()

    def id_faults(self) -> Iterator[Fault]:
        id = self.table.get("id")
        if id is None:
            yield Fault("X4 Absent", "id", 'this frame has no "id"', self.header)
        elif not isinstance(id, str):
            yield wrong_kind(self.piece("id"), '"id" of this frame', id, "a string")
        elif not id_in(id):
            yield Fault("I2 BadFrame", "", f"{quoted(id)} is not a frame id", self.piece("id"))

    def route_faults(self) -> Iterator[Fault]:
        routes = self.table.get("routes", {})
        if not isinstance(routes, dict):
            yield self.wrong_kind("routes", "a table")
            return
        yield from unknown_keys(routes, DIGITS, self.index, ("routes",), "routes, use the digits 0 to 9")
        for digit in sorted(set(routes) & set(DIGITS)):
            piece = self.piece("routes", digit, what=What.PAIR)
            yield from number_faults(piece, f"route {digit} of {self.name}", routes[digit], 0, MOST_PAGE)

    def lead_faults(self) -> Iterator[Fault]:
        lead = self.table.get("lead", "clear")
        if not isinstance(lead, str):
            yield self.wrong_kind("lead", "a string")
        elif lead not in ("clear", "keep"):
            words = f'"lead" of {self.name} is {quoted(lead)}, "clear" or "keep" is needed'
            yield out_of_range(self.piece("lead"), words)

    def text_faults(self) -> Iterator[Fault]:
        if "body" in self.table and "rows" in self.table:
            words = f'{self.name} has both "body" and "rows", leave out one'
            yield Fault("X7 BodyAndRows", "", words, self.piece("body", "rows", what=What.LATER_KEY))
        if "body" in self.table:
            yield from self.body_faults(self.table["body"])
        if "rows" in self.table:
            yield from self.rows_faults(self.table["rows"])
        if "body" not in self.table and "rows" not in self.table:
            piece = self.piece("id") if "id" in self.table else self.header
            yield Fault("X4 Absent", "body", f'{self.name} has no "body" and no "rows"', piece)

    def body_faults(self, body: object) -> Iterator[Fault]:
        if not isinstance(body, str):
            yield self.wrong_kind("body", "a string")
            return
        here = f'"body" of {self.name}'
        for at, words in code_flaws(r"[^\x00-\xff]", body, here, "at most U+00FF is allowed", "above U+00FF"):
            yield out_of_range(self.piece("body")._replace(indexes=(at,)), words)

    def rows_faults(self, rows: object) -> Iterator[Fault]:
        """Of each row its kind, or its length and the codes that no row may have."""
        if not isinstance(rows, list):
            yield self.wrong_kind("rows", "a list of strings")
            return
        whole = self.piece("rows")
        if len(rows) > MOST_ROWS:
            words = f"{self.name} has {len(rows):,} rows, at most {MOST_ROWS} are allowed"
            yield out_of_range(whole._replace(indexes=(MOST_ROWS,)), words)
        for index, row in enumerate(rows):
            piece, here = whole._replace(indexes=(index,)), f"row {index + 1:,} of {self.name}"
            if not isinstance(row, str):
                yield wrong_kind(piece, here, row, "a string")
                continue
            if len(row) > 40:
                yield Fault("X8 RowTooLong", "", f"{here} has {len(row):,} characters, at most 40 are allowed", piece)
            for at, words in code_flaws(r"[^\x20-\x9f]", row, here, "which no row may have", "that no row may have"):
                yield Fault("X9 RowCode", "", words, whole._replace(indexes=(index, at)))


def code_flaws(refused: str, text: str, here: str, needed: str, others: str) -> Iterator[tuple[int, str]]:
    """The first characters of a text that are refused, each with its place, then how many more there are."""
    found = list(re.finditer(refused, text))
    for bad in found[:MOST_CODES]:
        yield bad.start(), f"character {bad.start() + 1:,} of {here} is {code(bad[0])}, {needed}"
    if more := found[MOST_CODES:]:
        yield more[0].start(), f"{here} has {number_of(len(more), 'more character', 'more characters')} {others}"


def frame_faults(index: int, table: object) -> Iterator[Fault]:
    if isinstance(table, dict):
        yield from FrameJudge(index, table).faults()
    else:
        words = f'an item of "frame" is {kind(table)}, a table is needed'
        yield Fault("X5 WrongKind", "frame", words, Piece(What.HEADER, index))


def pages_read(tree: Table) -> list[tuple[int, int]]:
    """The outside pages that can be read, each with its index."""
    outside = tree.get("outside", [])
    pages = enumerate(outside if isinstance(outside, list) else [])
    return [(index, page) for index, page in pages if is_integer(page) and 0 <= page <= MOST_PAGE]


def base_faults(
    frames: list[tuple[int, Frame]], given_as_rows: set[int], outside: list[tuple[int, int]]
) -> Iterator[Fault]:
    """B4, B5, B3, B1 and B2 of the frames without a fault, which are listed with the numbers of their tables."""
    whole = Piece(What.VALUE, None, ("outside",))
    if len(frames) > MOST_LISTED:
        words = f"the base has {len(frames):,} frames, at most {MOST_LISTED:,} are allowed"
        yield Fault("B4 TooMany", "", words, Piece(What.VALUE, frames[MOST_LISTED][0], ("id",)))
    if len(outside) > MOST_LISTED:
        words = f'"outside" has {len(outside):,} pages, at most {MOST_LISTED:,} are allowed'
        yield Fault("B4 TooMany", "", words, whole._replace(indexes=(MOST_LISTED,)))
    in_order = sorted(frames, key=lambda entry: entry[1].id)
    for index, frame in in_order:
        if (size := len(frame.body)) > MOST_BODY:
            words = f"the body of frame {frame.id} has {size:,} bytes, at most {MOST_BODY:,} are allowed"
            piece = Piece(What.VALUE, index, ("rows" if index in given_as_rows else "body",))
            yield Fault("B5 BodyTooLong", frame.id, words, piece)
    for index, frame in in_order:
        if frame.next and frame.id.letter == "z":
            words = f'frame {frame.id} has "next", but z is the last frame of a page'
            yield Fault("B3 NextAfterZ", frame.id, words, Piece(What.PAIR, index, ("next",)))
    firsts: dict[FrameId, int] = {}
    for index, frame in in_order:
        if (first := firsts.setdefault(frame.id, index)) != index:
            words = f"frame {frame.id} is defined already on line "
            yield Fault("B1 Duplicate", frame.id, words, Piece(What.VALUE, index, ("id",)), first)
    for page in sorted({page for _, page in outside} & {frame.id.page for _, frame in frames}):
        index = next(index for index, other in outside if other == page)
        words = f"page {page} is listed as outside, but the base has a frame of it"
        yield Fault("B2 OutsideInside", page, words, whole._replace(indexes=(index,) if index < MOST_LISTED else ()))


def listed(faults: Iterable[Fault], where: str) -> Iterator[Fault]:
    """The faults of one table; from the 1,001st on they are one, at its place and with its code."""
    every = list(faults)
    yield from every[:MOST_FAULTS]
    if rest := every[MOST_FAULTS:]:
        yield rest[0]._replace(words=f"{number_of(len(rest), 'more fault', 'more faults')} {where}, not listed")


def text_faults(tree: Table) -> Iterator[Fault]:
    """Each fault of the text in the order of judging."""
    yield from listed(top_faults(tree), "at the top")
    tables = tree.get("frame", [])
    right, given_as_rows = [], set()
    for index, table in enumerate(tables if isinstance(tables, list) else []):
        faults = list(frame_faults(index, table))
        yield from listed(faults, f"in {name_of(table)}")
        if not faults:
            right.append((index, frame_of(table)))
            given_as_rows |= {index} if "rows" in table else set()
    yield from base_faults(right, given_as_rows, pages_read(tree))


def body_of_rows(rows: list[str]) -> str:
    return "\x1e\n" + "".join(row if len(row) == 40 else row + "\r\n" for row in rows)


def frame_of(table: FrameTable) -> Frame:
    """The frame of a table without a fault."""
    id = id_in(table["id"])
    assert id is not None
    body = (body_of_rows(table["rows"]) if "rows" in table else table["body"]).encode("latin-1")
    keep, routes, leads_on = table.get("lead") == "keep", table.get("routes", {}), table.get("next", False)
    return Frame(id, table.get("price", 0), table.get("group"), leads_on, routes, keep, body)


def base_in(tree: Table) -> Base:
    """The base of a tree without a fault."""
    table = cast(BaseTable, tree)
    frames = [frame_of(frame) for frame in table.get("frame", [])]
    return Base(table["entry"], set(table.get("outside", [])), {frame.id: frame for frame in frames})


def tree_in(data: bytes) -> Table | None:
    """The tree of the bytes, which Python reads alone if they are TOML 1.0 and have no line end that it changes."""
    try:
        tree = None if b"\r" in data else tomllib.loads(data.decode())
    except (ValueError, RecursionError):
        tree = None
    if tree is not None and fits_64_bits(tree):
        return tree
    return read.tree if (read := parsed(data)) else None


@lru_cache(maxsize=8)
def base_of(data: bytes) -> Base:
    """The base of the bytes; Refused with the first fault."""
    if len(data) > MOST_BYTES:
        raise Refused("base: X1 TooLong")
    if (tree := tree_in(data)) is None:
        raise Refused("base: X2 NotToml")
    for fault in text_faults(tree):
        raise Refused(fault.refusal)
    return base_in(tree)


def right_base(data: bytes) -> Base | None:
    try:
        return base_of(data)
    except Refused:
        return None
