"""Where a base's text has what a finding is about, as spans."""

import re
from collections.abc import Iterator
from dataclasses import dataclass
from enum import Enum, auto
from typing import NamedTuple

from .toml import Expression, Span, Value


class What(Enum):
    LINE_ONE = auto()
    HEADER = auto()
    KEY = auto()
    LATER_KEY = auto()
    VALUE = auto()
    PAIR = auto()


class Piece(NamedTuple):
    """A thing of a base's text: of a frame, which is known by its index, or of the top.

    The keys are in one another; of a later key they are those of which it is written last. The indexes are those of
    elements, in one another, and of a character of a string.
    """

    what: What
    frame: int | None = None
    keys: tuple[str, ...] = ()
    indexes: tuple[int, ...] = ()


@dataclass
class Spot:
    """A part of the key of an expression."""

    expression: Expression
    part: int

    @property
    def key(self) -> Span:
        """The key as it is written, with its quotation marks."""
        return Span(*self.expression.parts[self.part][1:])

    @property
    def value(self) -> Span:
        """The value; of a table that headers or dotted keys make the header or the key."""
        expression = self.expression
        if expression.value is None:
            return expression.span
        if self.part + 1 < len(expression.parts):
            return Span(self.key.begin, expression.parts[-1].end)
        return expression.value.span

    @property
    def pair(self) -> Span:
        """The key and its value; of a table that a header makes the header."""
        return self.expression.span if self.expression.value is None else Span(self.key.begin, self.expression.span.end)

    def inside(self, indexes: tuple[int, ...]) -> Span:
        """An element of the array, or a character of the string, at this key."""
        value = self.expression.value
        assert value is not None
        *elements, last = indexes
        for index in elements:
            value = value.elements[index]
        return Span(*value.characters[last][1:]) if value.characters else value.elements[last].span


class Entry(NamedTuple):
    """An expression with the keys of the table that it is in. The parts that are skipped lead to that table."""

    path: tuple[str, ...]
    expression: Expression
    skipped: int = 0

    def below(self) -> Iterator["Entry"]:
        """The entry, and those of the pairs of the inline tables in it."""
        yield self
        inside = self.path + self.expression.names[self.skipped :]
        for pair in self.expression.value.pairs if self.expression.value else []:
            yield from Entry(inside, pair).below()


class Places:
    """The spans of a base's text by its expressions."""

    def __init__(self, text: str, found: list[Expression]) -> None:
        self.text = text
        self.top: list[Entry] = []
        self.frames: list[list[Entry]] = []
        self.headers: list[Span] = []
        self.is_inline = False
        section: tuple[str, ...] = ()
        frame = None
        for expression in found:
            if expression.value:
                self.table(frame).extend(Entry(section, expression).below())
                continue
            names, frame = expression.names, None
            if names == ("frame",) and expression.is_element:
                self.frames.append([])
                self.headers.append(expression.span)
            if names[:1] == ("frame",) and self.frames:
                frame = len(self.frames) - 1
            section = names if frame is None else names[1:]
            self.table(frame).append(Entry((), expression, 0 if frame is None else 1))
        self.inline_frames()

    def table(self, frame: int | None) -> list[Entry]:
        return self.top if frame is None else self.frames[frame]

    def inline_frames(self) -> None:
        """The frames of `frame = [ { .. } ]`."""
        spot = self.spot(None, "frame")
        if self.frames or spot is None or spot.expression.value is None:
            return
        self.is_inline = True
        for element in spot.expression.value.elements:
            self.headers.append(element.span)
            self.frames.append([entry for pair in element.pairs for entry in Entry((), pair).below()])

    def spot(self, frame: int | None, *keys: str) -> Spot | None:
        """Where the last of these keys is first written, or None."""
        for path, expression, skipped in self.table(frame):
            names = path + expression.names[skipped:]
            if names[: len(keys)] == keys and len(path) < len(keys):
                return Spot(expression, len(keys) - 1 - len(path) + skipped)
        return None

    def value(self, frame: int | None, *keys: str) -> Value | None:
        """The value at the last of these keys, if it is written as one."""
        spot = self.spot(frame, *keys)
        return spot.expression.value if spot else None

    def find(self, piece: Piece) -> Span:
        """The span of a piece that the text has."""
        if piece.what == What.LINE_ONE:
            end = re.search(r"\r?\n|\Z", self.text)
            return Span(0, end.start() if end else 0)
        if piece.what == What.HEADER:
            return self.headers[piece.frame or 0]
        if piece.what == What.LATER_KEY:
            return max(self.find(Piece(What.KEY, piece.frame, (key,))) for key in piece.keys)
        spot = self.spot(piece.frame, *piece.keys)
        assert spot is not None
        if piece.indexes:
            return spot.inside(piece.indexes)
        return {What.KEY: spot.key, What.VALUE: spot.value, What.PAIR: spot.pair}[piece.what]

    def line_of_frame(self, frame: int) -> int:
        """Where the id of a frame is written; of a frame in a list, its table."""
        return self.headers[frame].begin if self.is_inline else self.find(Piece(What.KEY, frame, ("id",))).begin
