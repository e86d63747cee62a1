"""A certificate's text line by line, and the verdict on it."""

from collections.abc import Iterator
from dataclasses import dataclass
from typing import NamedTuple

from .base import (
    DIGITS,
    MOST_LISTED,
    MOST_PAGE,
    Answer,
    Asked,
    Base,
    Frame,
    FrameId,
    Groups,
    Policy,
    Refused,
    answers,
    groups_in,
    id_in,
    is_numeral,
)
from .faults import base_of
from .screen import paint

KEYS = [*DIGITS, "#"]


class Row(NamedTuple):
    id: FrameId
    rank: int
    cursor: str


@dataclass
class Certificate:
    entry: int
    ceiling: int
    keyings: int
    groups: Groups
    rows: list[Row]

    def ranks(self) -> dict[FrameId, int]:
        return {row.id: row.rank for row in self.rows}

    def lines(self) -> list[str]:
        """The lines of its text."""
        groups = [f"groups {' '.join(map(str, self.groups))}"] if self.groups else []
        numbers = [f"entry {self.entry}", f"ceiling {self.ceiling}", f"keyings {self.keyings}"]
        rows = [f"{id} {rank} {cursor}" for id, rank, cursor in self.rows]
        return ["PBC2" if groups else "PBC1", *numbers, *groups, f"rows {len(rows)}", *rows, "end"]


class Line(NamedTuple):
    """A line: its number, its text, and the offset after its end."""

    number: int
    text: str
    end: int

    def refused(self, cause: str) -> Refused:
        return Refused(f"certificate: line {self.number}: {cause}")

    def after(self, word: str) -> str:
        """What comes after the word, with which the line begins, and one space."""
        if not self.text.startswith(f"{word} "):
            raise self.refused("Word")
        return self.text.removeprefix(f"{word} ")

    def number_in(self, text: str, most: int) -> int:
        if not is_numeral(text):
            raise self.refused("Number")
        if int(text) > most:
            raise self.refused("Range")
        return int(text)


def lines_in(text: bytes) -> Iterator[Line]:
    """Each line; Refused if one is too long or has no end."""
    at, number = 0, 0
    while True:
        number += 1
        end = text.find(b"\n", at, at + 129)
        if end < 0:
            raise Line(number, "", at).refused("Word" if len(text) - at > 128 else "Truncated")
        yield Line(number, text[at:end].decode("latin-1"), end + 1)
        at = end + 1


def head_number(lines: Iterator[Line], word: str, most: int) -> int:
    """The number of the next line, which begins with its word."""
    line = next(lines)
    return line.number_in(line.after(word), most)


def groups_line(line: Line) -> Groups:
    words = line.after("groups").split(" ")
    try:
        return groups_in(words)
    except Refused as flaw:
        raise line.refused(str(flaw)) from None


def is_cursor(text: str) -> bool:
    place = text[:-1] if text[-1:] in ("+", "?") else text
    if place == "any":
        return True
    most = {"c": 39, "s": 959}.get(place[:1], -1)
    return is_numeral(place[1:]) and int(place[1:]) <= most


def row_in(line: Line, rows: list[Row]) -> Row:
    if line.text == "end":
        raise line.refused("Count")
    parts = line.text.split(" ")
    id = id_in(parts[0]) if len(parts) == 3 else None
    if id is None:
        raise line.refused("Word")
    rank = line.number_in(parts[1], 65_535)
    if not is_cursor(parts[2]):
        raise line.refused("Cursor")
    if rows and id <= rows[-1].id:
        raise line.refused("Order")
    return Row(id, rank, parts[2])


def certificate_of(text: bytes) -> Certificate:
    """The certificate of the bytes; Refused with the first line at fault."""
    lines = lines_in(text)
    first = next(lines)
    if first.text not in ("PBC1", "PBC2"):
        raise first.refused("Magic")
    limits = ("entry", MOST_PAGE), ("ceiling", 9_999), ("keyings", 65_535)
    entry, ceiling, keyings = (head_number(lines, word, most) for word, most in limits)
    groups = groups_line(next(lines)) if first.text == "PBC2" else ()
    rows: list[Row] = []
    for _ in range(head_number(lines, "rows", MOST_LISTED)):
        rows.append(row_in(next(lines), rows))
    last = next(lines)
    if last.text != "end":
        raise last.refused("Count")
    if last.end < len(text):
        raise last._replace(number=last.number + 1).refused("Tail")
    return Certificate(entry, ceiling, keyings, groups, rows)


def head_fault(base: Base, certificate: Certificate, policy: Policy) -> str | None:
    if certificate.entry != base.entry:
        return "K1 EntryDiffers"
    if certificate.ceiling > policy.ceiling:
        return "K2 CeilingAbove"
    if certificate.keyings > policy.keyings:
        return "K3 KeyingsAbove"
    if certificate.groups != policy.groups:
        return "K15 GroupsDiffer"
    return None if base.entry_id in certificate.ranks() else "K4 EntryNotCovered"


def frame_fault(frame: Frame, certificate: Certificate, row: Row) -> str | None:
    if not frame.is_open(certificate.groups):
        return f"K6 ClosedFrame {frame.id}"
    if frame.price > certificate.ceiling:
        return f"K7 Price {frame.id}"
    if row.rank > certificate.keyings:
        return f"K8 RankAbove {frame.id}"
    cursor, touch = paint(frame.keep, frame.body)
    if touch:
        return f"K9 Touches {frame.id} {touch.offset}"
    return None if cursor == row.cursor else f"K10 CursorDiffers {frame.id}"


def ways_fault(base: Base, frame: Frame, rank: int, ranks: dict[FrameId, int]) -> str | None:
    for digit, page in sorted(frame.routes.items()):
        if page not in base.outside and FrameId(page, "a") not in ranks:
            return f"K11 RouteNotCovered {frame.id} {digit}"
    if frame.next and frame.id.following not in ranks:
        return f"K12 NextNotCovered {frame.id}"
    if rank == 0:
        return None if frame.id == base.entry_id else f"K13 RankZero {frame.id}"
    ways = [ranks[to] for key in KEYS if (to := frame.sought(key)) in ranks and to]
    return None if any(way < rank for way in ways) else f"K14 NoWayDown {frame.id}"


def refusal(base: Base, certificate: Certificate, policy: Policy) -> str | None:
    """The first condition that fails, with its argument, or None."""
    if fault := head_fault(base, certificate, policy):
        return fault
    ranks = certificate.ranks()
    for row in certificate.rows:
        if row.id not in base.frames:
            return f"K5 NoFrame {row.id}"
        frame = base.frames[row.id]
        if fault := frame_fault(frame, certificate, row) or ways_fault(base, frame, row.rank, ranks):
            return fault
    return None


def verdict(fault: str | None) -> Answer:
    return Answer(1, f"{fault}\n") if fault else Answer(0, "CLEARED\n")


@answers
def check(text: bytes, certificate_text: bytes, asked: Asked) -> Answer:
    """What `check` answers."""
    policy, base, certificate = asked.policy, base_of(text), certificate_of(certificate_text)
    fault = refusal(base, certificate, policy)
    return verdict(fault and f"REFUSED {fault}")
