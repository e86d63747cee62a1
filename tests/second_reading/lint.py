"""Every finding of `lint`: the faults of a base's text, or those of its audit and the frames that no walk reaches.

For a text that isn't TOML there is one finding, but `toml`'s own message isn't known here: the line of the answer is
UNREAD, which matches any place and any message.
"""

import re
from collections.abc import Iterable, Iterator
from itertools import pairwise
from typing import Literal, NamedTuple, cast

from .audit import Survey
from .base import MOST_BYTES, Answer, Asked, Base, Frame, FrameId, Policy, answers, id_in
from .faults import MOST_ROWS, BaseTable, FrameTable, base_in, text_faults
from .looks import COLUMNS, Look, looks
from .places import Piece, Places, What
from .screen import State, step
from .screens import cells_after_bytes
from .toml import Lines, Span, Table, parsed
from .words import number_of

UNREAD = "error: X2 NotToml: MESSAGE"
# What a line end does, by whether it returns to the first column.
LINE_ENDS = {
    False: "ends with a line feed alone, so the text goes on in the same column",
    True: "ends with CR LF as the file does: saved with LF, the text goes on in the same column",
}

# u00 and two digits of base 16 at the start, or after a slash, a quotation mark or what the code of a backslash shows
SHOWN_ESCAPE = re.compile("(?:^|(?<=[½/\"']))u00[0-9A-Fa-f]{2}")
# a single digit and more words
MENU_LINE = re.compile("( *)([0-9]) +[^ ]")


class Finding(NamedTuple):
    span: Span
    level: Literal["error", "warning"]
    words: str


def keys_in_brackets(script: str) -> str:
    return " (at the entry page)" if script == "-" else f" (keys {script})"


def first_feed(body: bytes, returns: bool) -> int | None:
    """The first line feed of a body before a byte of 20 or more that isn't in the first column, or that follows a
    return from another column."""
    state, returned = State(40, False), False
    for at, (byte, following) in enumerate(pairwise(body)):
        is_inside = state.at % 40 > 0
        if byte == 0x0A and following >= 0x20 and (returned if returns else is_inside):
            return at
        returned = byte == 0x0D and is_inside
        state = step(state, byte).state
    return None


class Sights:
    """What one sees of a frame alone."""

    def __init__(self, frame: Frame) -> None:
        self.frame = frame
        self.cells = cells_after_bytes(b"\x0a" + frame.body)
        self.rows = looks(self.cells)
        self.texts = ["".join(look.character() for look in row) for row in self.rows]

    def byte_at(self, row: int, column: int) -> int:
        """The index of the byte of the body that writes a cell last."""
        state, last = State(40, False), 0
        for index, byte in enumerate(self.frame.body):
            state, written = step(state, byte)
            if len(written) == 1 and written[0].at == COLUMNS * row + column:
                last = index
        return last

    def escapes(self) -> Iterator[tuple[int, int]]:
        """The row and the byte of the first escape that a row shows."""
        for row, text in enumerate(self.texts):
            if found := SHOWN_ESCAPE.search(text):
                yield row, self.byte_at(row, found.start())

    def menu(self) -> Iterator[tuple[int, int, Look]]:
        """The row and the column of each digit that begins a line of a menu, and its look."""
        for row in range(1, 23):
            has_blocks = any(isinstance(look.holds, int) and not look.concealed for look in self.rows[row])
            found = MENU_LINE.match(self.texts[row])
            if found and not has_blocks:
                column = found.end(1)
                yield row, column, self.rows[row][column]

    def offers(self) -> Iterator[tuple[int, int, str]]:
        """The row, the byte and the digit of each line without a route beside two that have one."""
        menu = [(row, column, str(look.holds), look.foreground) for row, column, look in self.menu()]
        routed = [(column, colour) for _, column, digit, colour in menu if digit in self.frame.routes]
        for row, column, digit, colour in menu:
            if digit not in self.frame.routes and routed.count((column, colour)) >= 2:
                yield row, self.byte_at(row, column), digit


def sought_in(base: Base) -> set[FrameId]:
    """The frames to which ways of frames lead."""
    sought = (frame.sought(key) for frame in base.frames.values() for key in [*frame.routes, "#"])
    return {id for id in sought if id}


class Audited:
    """A base whose audit is put into words, with the piece of the text that is at fault."""

    def __init__(self, tree: Table, places: Places, policy: Policy) -> None:
        self.base, self.places = base_in(tree), places
        self.survey = Survey(self.base, policy)
        self.policy = policy
        self.indexes: dict[FrameId, int] = {}
        self.tables: dict[FrameId, FrameTable] = {}
        for index, table in enumerate(cast(BaseTable, tree).get("frame", [])):
            if id := id_in(table["id"]):
                self.indexes[id], self.tables[id] = index, table
        self.in_order = sorted(self.tables)

    def piece(self, id: FrameId, what: What, *keys: str, indexes: tuple[int, ...] = ()) -> Piece:
        return Piece(what, self.indexes[id], keys, indexes)

    def faults(self) -> Iterator[tuple[Piece, str]]:
        """Each fault in the order in which the audit lists them."""
        for line in self.survey.faults():
            word, id, *rest = line.split(" ")
            frame = id_in(rest[1] if rest[:1] == ["AT"] else id)
            assert frame is not None
            if word.startswith("ENTRY"):
                yield self.entry(word, frame)
                continue
            piece, words = self.fault(word, frame, id, rest)
            yield piece, f"{word}: {words}{keys_in_brackets(rest[-1])}"

    def entry(self, word: str, id: FrameId) -> tuple[Piece, str]:
        if word == "ENTRYMISSING":
            return Piece(What.VALUE, None, ("entry",)), f"{word}: the entry page {id.page} has no frame a"
        words = f"frame {id}, the entry page, is closed to these callers; {self.belongs(id)}"
        return self.piece(id, What.VALUE, "group"), f"{word}: {words}"

    def belongs(self, id: FrameId) -> str:
        return f"it belongs to group {self.base.frames[id].group}"

    def fault(self, word: str, id: FrameId, sought: str, rest: list[str]) -> tuple[Piece, str]:
        """What is at fault in a frame, and the words; for a way the id that it seeks."""
        match word:
            case "PRICE":
                words = f"frame {id} costs {rest[0]}, the ceiling is {self.policy.ceiling}"
                return self.piece(id, What.VALUE, "price"), words
            case "TOUCHES":
                return self.touches(id, int(rest[1]), rest[3])
            case "NORETURN":
                return self.piece(id, What.VALUE, "id"), self.no_return(id)
        key = rest[3]
        keys = ("next",) if key == "#" else ("routes", key)
        return self.piece(id, What.PAIR, *keys), f"key {key} of frame {id} leads to {self.lost(word, sought)}"

    def lost(self, word: str, sought: str) -> str:
        if word == "MISSING" and sought[-1] == "a":
            return f"page {sought[:-1]}, which has no frame a"
        if word == "MISSING":
            return f"frame {sought}, which the base lacks"
        id = id_in(sought)
        assert id is not None
        return f"frame {id}, which is closed to these callers; {self.belongs(id)}"

    def touches(self, id: FrameId, offset: int, start: str) -> tuple[Piece, str]:
        if "rows" not in self.tables[id]:
            words = f"byte {offset:,} of the body of frame {id} writes into a service row, from start {start}"
            return self.piece(id, What.VALUE, "body", indexes=(offset,)), words
        rows, ends = self.tables[id]["rows"], [2]
        for row in rows:
            ends.append(ends[-1] + len(row) + 2 * (len(row) < 40))
        number = next(number for number, end in enumerate(ends) if offset < end)
        words = f"row {number} of frame {id} writes into a service row"
        if number == MOST_ROWS and "\x8d" in rows[number - 1]:
            words = f"row {MOST_ROWS} of frame {id} has double height, which writes into the last row"
        return self.piece(id, What.VALUE, "rows", indexes=(number - 1,)), words

    def no_return(self, id: FrameId) -> str:
        rank, keyings = self.survey.ranks.get(id), self.policy.keyings
        if rank is None:
            return f"no keys lead from frame {id} back to the entry page"
        allowed = f"at most {keyings:,} {'is' if keyings == 1 else 'are'} allowed"
        return f"from frame {id} the entry page is {number_of(rank, 'key', 'keys')} away, {allowed}"

    def unreached(self) -> Iterator[tuple[Piece, str]]:
        """The open frames that no walk reaches, in the order of their ids. If there is no walk they are counted."""
        ids = [id for id in self.survey.unreached if self.base.frames[id].is_open(self.policy.groups)]
        if self.survey.unopened and ids:
            words = f"no key leads to {number_of(len(ids), 'frame', 'frames')} from the entry page"
            yield Piece(What.VALUE, None, ("entry",)), f"UNREACHED: {words}"
        for id in [] if self.survey.unopened else ids:
            yield self.piece(id, What.VALUE, "id"), f"UNREACHED: no key leads to frame {id} from the entry page"

    def hidden(self) -> Iterator[tuple[Piece, str]]:
        """The rows with text that the double height of the row above hides, of frames given as rows."""
        for id in self.in_order:
            covered = False
            for index, row in enumerate(self.tables[id].get("rows", [])):
                if covered and any("\x20" < code < "\x80" for code in row):
                    words = f"HIDDEN: row {index + 1} of frame {id} is hidden by the double height of row {index}"
                    yield self.piece(id, What.VALUE, "rows", indexes=(index,)), words
                covered = "\x8d" in row and not covered

    def escapes(self) -> Iterator[tuple[Piece, str]]:
        """The rows in single quotation marks that hold the beginning of an escape."""
        for id in self.in_order:
            for index, row in enumerate(self.tables[id].get("rows", [])):
                piece = self.piece(id, What.VALUE, "rows", indexes=(index,))
                if "\\u00" in row and self.places.text[self.places.find(piece).begin] == "'":
                    has = "has \\u00 in single quotation marks, which is shown as it is"
                    yield piece, f"ESCAPE: row {index + 1} of frame {id} {has}"

    def line_ends(self) -> Iterator[tuple[Piece, str]]:
        """In each body the first line end of each kind, if the file writes it as one, before text."""
        for id in self.in_order:
            body = self.tables[id].get("body", "").encode("latin-1")
            for returns, how in LINE_ENDS.items():
                at = first_feed(body, returns)
                if at is None:
                    continue
                piece = self.piece(id, What.VALUE, "body", indexes=(at,))
                begin, end = self.places.find(piece)
                if self.places.text[begin:end] == "\n" and (not returns or self.places.text[begin - 1] == "\r"):
                    yield piece, f"LINEEND: a line of the body of frame {id} {how}"

    def sight(self, id: FrameId, row: int, byte: int) -> Piece:
        """A row of the screen: of a frame that is given as rows the row, else the byte of its body."""
        if "rows" in self.tables[id]:
            return self.piece(id, What.VALUE, "rows", indexes=(row - 1,))
        return self.piece(id, What.VALUE, "body", indexes=(byte,))

    def sights(self) -> Iterator[tuple[Piece, str]]:
        """The rows that show an escape, and those that offer a key without a route."""
        escaped = {piece for piece, _ in self.escapes()}
        for id in self.in_order:
            seen = Sights(self.base.frames[id])
            for row, byte in seen.escapes():
                if (piece := self.sight(id, row, byte)) not in escaped:
                    yield piece, f"ESCAPE: row {row} of frame {id} shows an escape as it is written"
            for row, byte, digit in seen.offers():
                words = f"MENU: row {row} of frame {id} offers key {digit}, which has no route"
                yield self.sight(id, row, byte), words

    def unsought(self) -> Iterator[tuple[Piece, str]]:
        """The closed frames to which no way of any frame leads."""
        sought = sought_in(self.base)
        for id in self.in_order:
            frame = self.base.frames[id]
            if not frame.is_open(self.policy.groups) and id not in sought:
                words = f"UNSOUGHT: no key of any frame leads to frame {id}, which belongs to group {frame.group}"
                yield self.piece(id, What.VALUE, "id"), words

    def warnings(self) -> list[tuple[Piece, str]]:
        shown = [*self.hidden(), *self.escapes(), *self.line_ends(), *self.sights()]
        return [*self.unreached(), *shown, *self.unsought()]


def findings(tree: Table, places: Places, lines: Lines, policy: Policy) -> Iterator[Finding]:
    """Each finding in the order of judging."""

    def found(level: Literal["error", "warning"], every: Iterable[tuple[Piece, str]]) -> Iterator[Finding]:
        return (Finding(places.find(piece), level, words) for piece, words in every)

    if faults := list(text_faults(tree)):
        firsts = (None if fault.first is None else places.line_of_frame(fault.first) for fault in faults)
        ends = ("" if first is None else str(lines.place(first)[0]) for first in firsts)
        told = ((fault.piece, f"{fault.name}: {fault.words}{end}") for fault, end in zip(faults, ends))
        yield from found("error", told)
        return
    audited = Audited(tree, places, policy)
    yield from found("error", audited.faults())
    yield from found("warning", audited.warnings())


def count_line(levels: list[str]) -> str:
    counts = [(levels.count("error"), "error"), (levels.count("warning"), "warning")]
    return ", ".join(number_of(count, word, f"{word}s") for count, word in counts if count)


@answers
def lint(path: object, data: bytes, asked: Asked) -> Answer:
    """What `lint` answers of a file's bytes."""
    policy = asked.policy
    if len(data) > MOST_BYTES:
        words = f"X1 TooLong: the text has more than {MOST_BYTES:,} bytes"
        return Answer(1, f"{path}:1:1: error: {words}\n", "1 error\n")
    if not (read := parsed(data)):
        return Answer(1, f"{path}:LINE:COLUMN: {UNREAD}\n", "1 error\n")
    text, expressions, tree = read
    lines = Lines(text)
    listed = sorted(findings(tree, Places(text, expressions), lines, policy), key=lambda finding: finding.span.begin)
    placed = [(lines.place(span.begin), level, words) for span, level, words in listed]
    stdout = "".join(f"{path}:{line}:{column}: {level}: {words}\n" for (line, column), level, words in placed)
    levels = [finding.level for finding in listed]
    return Answer(1 if "error" in levels else 0, stdout, f"{count_line([*levels])}\n" if listed else "")


def is_line(wanted: str, found: str) -> bool:
    """Whether a line is the wanted one, to which a hint may be added."""
    return found == wanted or found.startswith(f"{wanted}; ")


def is_answer(path: object, wanted: Answer, found: Answer) -> bool:
    """Whether an answer is the wanted one, hints aside; a text that isn't TOML may be refused at any place."""
    if (wanted.status, wanted.stderr) != (found.status, found.stderr):
        return False
    if wanted.stdout == f"{path}:LINE:COLUMN: {UNREAD}\n":
        line = rf"{re.escape(str(path))}:[1-9]\d*:[1-9]\d*: error: X2 NotToml: [^\n]+\n"
        return bool(re.fullmatch(line, found.stdout))
    lines = wanted.stdout.split("\n"), found.stdout.split("\n")
    return len(lines[0]) == len(lines[1]) and all(map(is_line, *lines))
