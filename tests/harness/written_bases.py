"""Random bases in many forms of TOML, with faults whose places and words are known from the writing.

Nothing of tests/second_reading is used here: a place is where the writer was when it wrote the expression.
"""

import datetime
import re
from collections.abc import Iterator
from random import Random
from typing import NamedTuple, cast

from harness.running import Done
from harness.writing import Chance, Name, Pen, Sheet


PAGES: list[int] = [0, 3, 555, 1_231, 70_000, 8_000_000, 999_999_999, *range(12, 70)]
ODD: list[tuple[object, str]] = [
    ("x1", "a string"),
    (7, "a whole number"),
    (1.5, "a decimal number"),
    (True, "true or false"),
    (datetime.date(1979, 5, 27), "a date or time"),
    (datetime.time(7, 32), "a date or time"),
    ([1, "]", [2]], "a list"),
    ({"a": [1], "}": '"'}, "a table"),
]
# Texts of the file and how they are shown.
TEXTS = [
    *(("", '""'), ("12", '"12"'), ("012a", '"012a"'), ("12A", '"12A"'), ("12aa", '"12aa"'), (" 12a", '" 12a"')),
    *(('1"a', r'"1\"a"'), ("1\\a", r'"1\\a"'), ("\x07\t", r'"\u0007\u0009"'), ("\u00e9#", '"\u00e9#"')),
    *(("\x7f\x80\x9f\xa0", '"\\u007F\\u0080\\u009F\xa0"'), ("1000000000a", '"1000000000a"')),
    *(("9" * 40, f'"{"9" * 40}"'), ("9" * 41, f'"{"9" * 40}..."'), ('"' * 45, '"' + '\\"' * 40 + '..."')),
]
# Codes that no row may have, and how they are shown.
CODES = [(c, f"U+{ord(c):04X}") for c in "\t\xa0\x07\x00"] + [(c, f"{c} (U+{ord(c):04X})") for c in "\xa3\xad\xff"]
# Those that no body may have either.
FAR_CODES = [(c, f"{c} (U+{ord(c):04X})") for c in "\u2018\u2019\u201c\u201d\u2013\u2014\u0100\U0001f600"]
UNKNOWN_OF_A_BASE = ["outsides", "entri", "frames", "fame", "nerty", "zeta", "id"]
UNKNOWN_OF_A_FRAME = [
    *("pirce", "route", "di", "idd", "row", "led", "groupes", "bday", "rown", "ldea", "os", "nxet"),
    *("bodies", "PRICE", "x", "entry"),
]
ODD_KEYS = [(text, shown) for text, shown in TEXTS if not text.isdigit() or len(text) > 1]
# Bodies that write into a service row after a cleared screen, with the offset of the first byte that does.
TOUCHING = [
    ("\r\n" * 22 + "A", 44),
    ("\n" * 22 + "A\n", 22),
    ("\x1eX", 1),
    ("\x1e\n\x0bAB", 3),
    ("\x1e\x0b\x1bA", 3),
    ("\x1e\nA\x0c", 3),
    ("\x1e\n" + "A" * 881, 882),
    ("\x1e\n" + "A\r" * 700 + "\x0bA", 1_403),
    ("\x1e" + "\n" * 22 + "ABC\x8d", 26),
    ("\x1e" + "\n" * 22 + "AB\x1bM", 26),
]
# Bodies with a line feed after which text goes on in its column, and the index of that line feed.
FEEDS = {"\x1e\nTEXT\nTEXT": 6, "\x1e\nAB\n\nCD": 5, "\x1e\n\tA\n\x80": 4}
# Bodies with a line feed after a return, and its index.
RETURNS = {"\x1e\nTEXT\r\nTEXT": 7, "\x1e\n\r\nAB\r\n\r\nA\r\n\x80": 12}
MOST_FAULTS = 1_000
# The fields in the order of judging: unknown keys, then these; `text` is the body or the rows.
JUDGED = ["", "id", "price", "group", "next", "routes", "lead", "text"]


class Fault(NamedTuple):
    """The words of a finding, and what is at fault: its name from the table of a frame, or of the top, on.

    Without a name it is the file's first line; of `later` keys it is the one that is written last. {F} is the frame's
    name, and some words end with the line of another frame.
    """

    words: str
    name: Name = ("value",)
    frame: "Frame | None" = None
    first: "Frame | None" = None


def listed(faults: list[Fault], where: str) -> list[Fault]:
    """The first 1,000 faults of one table, and one finding for the others, where the first of these is."""
    if len(faults) <= MOST_FAULTS:
        return faults
    first, *more = faults[MOST_FAULTS:]
    words = f"{len(more) + 1:,} more fault{'s' * bool(more)} {where}, not listed"
    return [*faults[:MOST_FAULTS], first._replace(words=f"{first.words.split(': ')[0]}: {words}")]


class Frame:
    """A frame's fields, and the faults of each field."""

    def __init__(self, page: int, letter: str, text: dict[str, object]) -> None:
        self.page, self.letter = page, letter
        self.fields: dict[str, object] = {"id": f"{page}{letter}", **text}
        self.faults: dict[str, list[Fault]] = {}
        self.script: str | None = None
        self.rank: int | None = None

    @property
    def id(self) -> str:
        return f"{self.page}{self.letter}"

    @property
    def place(self) -> tuple[int, str]:
        return self.page, self.letter

    @property
    def routes(self) -> dict[str, object]:
        return cast(dict[str, object], self.fields["routes"])

    @property
    def rows(self) -> list[object]:
        return cast(list[object], self.fields.get("rows", []))

    @property
    def keys(self) -> str:
        """The keys that lead to the frame, as words of a fault."""
        return f" (keys {self.script})" if self.script else " (at the entry page)"

    def spoil(self, field: str, value: object, words: str, *name: str | int) -> None:
        """A field has a value that is at fault."""
        self.fields[field] = value
        self.fault(field, words, *(name or (field, "value")))

    def fault(self, field: str, words: str, *name: str | int) -> None:
        self.faults_of(field).append(Fault(words, name))

    def faults_of(self, field: str) -> list[Fault]:
        return self.faults.setdefault("text" if field in ("body", "rows") else field, [])

    def in_order(self) -> Iterator[Fault]:
        """The faults in the order of judging, with the frame's name in the words."""
        name = f"frame {self.id}" if self.fields.get("id") == self.id else "this frame"
        faults = [fault for field in JUDGED for fault in self.faults_of(field)]
        for fault in listed(faults, "in {F}"):
            is_empty = fault.words.startswith("X4 Absent: {F}") and "id" in self.fields
            place = ("id", "value") if is_empty else fault.name
            yield fault._replace(words=fault.words.replace("{F}", name), name=place)


class Written(Chance):
    """A base that is written: its text, and what `lint` has to print of it."""

    def __init__(self, random: Random) -> None:
        super().__init__(random)
        self.pen = Pen(random)
        self.sheet: Sheet
        self.pages: list[int] = random.sample(PAGES, len(PAGES))
        self.top: dict[str, object] = {}
        self.frames: list[Frame] = []
        self.top_faults: list[Fault] = []
        self.whole_faults: list[Fault] = []
        self.warnings: list[Fault] = []
        self.ceiling, self.keyings = 9_999, 65_535
        self.groups: str | None = None
        self.is_inline = False
        self.later: list[str] = []

    def page(self) -> int:
        return self.pages.pop()

    def plain_text(self) -> dict[str, object]:
        """A body or rows that writes into no service row."""
        if self.chance(0.5):
            rows = ["", "ONE", "TWO # 2", "'\"'", "[[frame]]", "\\u0081X"]
            return {"rows": [self.pick(rows) for _ in range(self.pick([0, 1, 2, 21]))]}
        if self.chance(0.3):
            return {"body": self.pick([*FEEDS, *RETURNS])}
        return {"body": "\x1e\n" + self.pick(["", "TEXT", "= ] }", "\x1bAx", "\u00e9\u00a3", "'\"\\"])}

    def write(self) -> bytes:
        self.sheet = sheet = Sheet(self.pen)
        tops = list(self.top)
        self.random.shuffle(tops)
        self.is_inline = self.pen.is_odd and self.chance(0.25) and all(frame.fields for frame in self.frames)
        self.later = [key for key in tops if isinstance(self.top[key], dict) and self.top[key] and self.chance(0.5)]
        for key in tops:
            if key not in self.later:
                sheet.expression(self.pen.pair((key,), self.top[key], ("top",)))
        if self.is_inline and self.frames:
            sheet.expression(self.pen.pair(("frame",), [frame.fields for frame in self.frames], ("top",)))
        else:
            for index, frame in enumerate(self.frames):
                self.write_frame(index, frame)
        self.write_later(1)
        if self.pen.is_odd and self.chance(0.2):
            sheet.text = sheet.text.removesuffix(self.pen.eol)
        return sheet.text.encode()

    def write_later(self, share: float) -> None:
        """Tables of the base by headers of their own, which may be between those of frames."""
        while self.later and self.chance(share):
            key = self.later.pop()
            self.write_section([(key, ("top", key))], self.top[key])

    def write_section(self, keys: list[tuple[str, Name]], table: object) -> None:
        """A table by a header of its own; often the header is that of the one table in it."""
        name, pairs = keys[-1][1], cast(dict[str, object], table)
        first, only = next(iter(pairs.items()))
        if len(pairs) == 1 and isinstance(only, dict) and only and self.pen.is_odd and self.chance(0.5):
            self.write_section([*keys, (first, (*name, first))], only)
            return
        self.sheet.header(keys)
        for key, value in pairs.items():
            self.sheet.expression(self.pen.pair((key,), value, name))

    def write_frame(self, index: int, frame: Frame) -> None:
        sheet = self.sheet
        sheet.header([("frame", (index,))], is_element=True)
        keys = list(frame.fields)
        self.random.shuffle(keys)
        later = []
        for key in keys:
            value = frame.fields[key]
            form = self.pick(["pair", "pair", "dots", "section"]) if isinstance(value, dict) and value else "pair"
            if form == "section":
                later.append(key)
            elif form == "dots" and isinstance(value, dict):
                for inner, part in value.items():
                    sheet.expression(self.pen.pair((key, inner), part, (index,)))
            else:
                sheet.expression(self.pen.pair((key,), value, (index,)))
        for key in later:
            self.write_later(0.3)
            self.write_section([("frame", ()), (key, (index, key))], frame.fields[key])
        self.write_later(0.3)

    def span(self, frame: Frame | None, name: Name) -> tuple[int, int]:
        """Where a thing is in a frame, or at the top."""
        if frame is None:
            return self.sheet.spans[("top", *name)]
        index = next(index for index, other in enumerate(self.frames) if other is frame)
        return self.sheet.spans[("top", "frame", index, *name) if self.is_inline else (index, *name)]

    def begin(self, frame: Frame | None, name: Name) -> int:
        """Where what is at fault begins."""
        if name and name[-1] == "later":
            return max(self.begin(frame, (key, "key")) for key in name[:-1])
        return self.span(frame, name)[0] if name else 0

    def line(self, frame: Frame | None) -> str:
        """The line of a frame to which words refer."""
        if frame is None:
            return ""
        return str(self.sheet.place(self.begin(frame, ("value",) if self.is_inline else ("id", "key")))[0])

    def findings(self) -> Iterator[tuple[int, str, str]]:
        """Each finding with where it begins, in the order of judging; after `write`."""
        errors = listed(self.top_faults, "at the top")
        errors += [fault._replace(frame=frame) for frame in self.frames for fault in frame.in_order()]
        for level, faults in ("error", errors + self.whole_faults), ("warning", self.warnings):
            for fault in faults:
                yield self.begin(fault.frame, fault.name), level, fault.words + self.line(fault.first)

    def answer(self, path: object) -> Done:
        """How `lint` has to end, and what it has to print."""
        found = sorted(self.findings(), key=lambda finding: finding[0])
        placed = [(self.sheet.place(at), level, words) for at, level, words in found]
        lines = [f"{path}:{line}:{column}: {level}: {words}\n" for (line, column), level, words in placed]
        numbers = [(sum(level == word for _, level, _ in found), word) for word in ("error", "warning")]
        counts = ", ".join(f"{number:,} {word}{'s' * (number > 1)}" for number, word in numbers if number)
        return Done(1 if numbers[0][0] else 0, "".join(lines), f"{counts}\n" if counts else "")


class FaultyText(Written):
    """A base with faults of its text: each has its words from the rules, in the order of judging."""

    def __init__(self, random: Random) -> None:
        super().__init__(random)
        for _ in range(self.pick([0, 1, 2, 3, 5, 8])):
            page = self.page()
            for letter in self.pick(["a", "a", "ab", "abc", "xyz"]):
                self.frames.append(self.right_frame(page, letter))
        self.random.shuffle(self.frames)
        self.spoil_top()
        for frame in self.frames:
            for _ in range(self.pick([0, 0, 1, 1, 2])):
                self.spoil(frame)
        self.spoil_whole([frame for frame in self.frames if not any(frame.faults.values())])
        if not (self.top_faults or self.whole_faults or any(any(frame.faults.values()) for frame in self.frames)):
            self.leave_entry_out()

    def spoil_at(self, key: str, value: object, words: str) -> None:
        """A key of the top has a value that is at fault."""
        self.top[key] = value
        self.top_faults.append(Fault(words, (key, "value")))

    def leave_entry_out(self) -> None:
        del self.top["entry"]
        self.top_faults.append(Fault('X4 Absent: the base has no "entry"', ()))

    def right_frame(self, page: int, letter: str) -> Frame:
        frame = Frame(page, letter, self.plain_text())
        fields = frame.fields
        if self.chance(0.4):
            fields["price"] = self.pick([0, 1, 50, 9_999])
        if self.chance(0.3):
            fields["group"] = self.pick([1, 7, 65_535])
        if self.chance(0.3):
            fields["next"] = self.chance(0.5) and letter != "z"
        if self.chance(0.7):
            digits = self.random.sample("0123456789", self.pick([0, 1, 2, 4]))
            fields["routes"] = {digit: self.pick(PAGES) for digit in digits}
        if self.chance(0.3):
            fields["lead"] = self.pick(["clear", "keep"])
        return frame

    def wrong_kind(self, name: str, needed: str, fitting: str | None = None) -> tuple[object, str]:
        """A value of another kind, and the words of X5."""
        value, kind = self.pick([(value, kind) for value, kind in ODD if kind != (fitting or needed)])
        return value, f"X5 WrongKind: {name} is {kind}, {needed} is needed"

    def wrong_number(self, name: str, least: int, most: int) -> tuple[object, str]:
        if self.chance(0.4):
            return self.wrong_kind(name, "a whole number")
        low, high = least - self.pick([1, 5, 10**9]), most + self.pick([1, 5, 10**9])
        if self.chance(0.5):
            return low, f"X6 Range: {name} is {low}, at least {least} is needed"
        return high, f"X6 Range: {name} is {high}, at most {most} is allowed"

    def unknown_keys(self, known: list[str], words: str, count: int) -> Iterator[tuple[str, object, str]]:
        """Unknown keys in the order of their bytes: each with its value and the words of X3."""
        keys = {}
        for _ in range(count):
            if self.chance(0.3):
                key, shown = self.pick(ODD_KEYS)
            else:
                key = self.pick(known)
                shown = f'"{key}"'
            keys[key] = f"X3 UnknownKey: {shown} is not a key of {words}"
        for key in sorted(keys, key=str.encode):
            yield key, self.pick(ODD)[0], keys[key]

    def spoil_top(self) -> None:
        for key, value, words in self.unknown_keys(UNKNOWN_OF_A_BASE, "a base", self.pick([0, 0, 0, 1, 2])):
            self.top[key] = value
            self.top_faults.append(Fault(words, (key, "key")))
        self.top["entry"] = self.pick(PAGES)
        share = self.random.random()
        if share < 0.1:
            self.leave_entry_out()
        elif share < 0.3:
            self.spoil_at("entry", *self.wrong_number('"entry"', 0, 999_999_999))
        self.spoil_outside()
        if not self.frames:
            self.spoil_frames()

    def spoil_frames(self) -> None:
        """In the place of frames something else, or a list of what is no frame."""
        value, kind = self.pick([*ODD, (None, "a list")])
        if kind != "a list":
            self.spoil_at("frame", value, f'X5 WrongKind: "frame" is {kind}, an array of tables is needed')
            return
        items = self.random.sample([(value, kind) for value, kind in ODD if kind != "a table"], self.pick([0, 1, 2]))
        self.top["frame"] = [value for value, _ in items]
        for at, (_, kind) in enumerate(items):
            words = f'X5 WrongKind: an item of "frame" is {kind}, a table is needed'
            self.top_faults.append(Fault(words, ("frame", at, "value")))

    def spoil_outside(self) -> None:
        share = self.random.random()
        if share < 0.1:
            self.spoil_at("outside", *self.wrong_kind('"outside"', "a list of whole numbers", "a list"))
            return
        outside: list[object] = [self.page() for _ in range(self.pick([0, 1, 3]))]
        if share < 0.4:
            many = self.frames and self.chance(0.05)
            for _ in range(self.pick([998, 1_001, 1_300] if many else [0, 1, 3])):
                outside.append(1_000)
                if many or self.chance(0.6):
                    outside[-1], words = self.wrong_number(f'item {len(outside):,} of "outside"', 0, 999_999_999)
                    self.top_faults.append(Fault(words, ("outside", len(outside) - 1, "value")))
        if outside or self.chance(0.5):
            self.top["outside"] = outside

    def spoil(self, frame: Frame) -> None:
        """One field of the frame is at fault, if it wasn't before."""
        field = self.pick(JUDGED + ["text", "text", "routes"])
        spoils = [self.spoil_keys, self.spoil_id, self.spoil_routes, self.spoil_lead, self.spoil_text]
        spoil = dict(zip(["", "id", "routes", "lead", "text"], spoils))
        if frame.faults_of(field):
            return
        if field in spoil:
            spoil[field](frame)
        elif field == "next":
            frame.spoil("next", *self.wrong_kind('"next" of {F}', "true or false"))
        else:
            least, most = (0, 9_999) if field == "price" else (1, 65_535)
            frame.spoil(field, *self.wrong_number(f'"{field}" of {{F}}', least, most))

    def spoil_keys(self, frame: Frame) -> None:
        for key, value, words in self.unknown_keys(UNKNOWN_OF_A_FRAME, "a frame", self.pick([1, 1, 2, 3])):
            frame.fields[key] = value
            frame.fault("", words, key, "key")

    def spoil_id(self, frame: Frame) -> None:
        share = self.random.random()
        if share < 0.2:
            del frame.fields["id"]
            frame.fault("id", 'X4 Absent: this frame has no "id"', "value")
        elif share < 0.4:
            frame.spoil("id", *self.wrong_kind('"id" of this frame', "a string"))
        else:
            text, shown = self.pick(TEXTS)
            frame.spoil("id", text, f"I2 BadFrame: {shown} is not a frame id")

    def spoil_routes(self, frame: Frame) -> None:
        if self.chance(0.2):
            frame.spoil("routes", *self.wrong_kind('"routes" of {F}', "a table"))
            return
        routes = frame.fields["routes"] = dict(frame.routes) if "routes" in frame.fields else {}
        unknown = [*TEXTS, ("#", '"#"'), ("l", '"l"'), ("10", '"10"')]
        drawn = self.random.sample(unknown, self.pick([0, 0, 1, 2]))
        for key, shown in sorted(drawn, key=lambda item: item[0].encode()):
            routes[key] = self.pick(ODD)[0]
            words = f"X3 UnknownKey: {shown} is not a key of routes, use the digits 0 to 9"
            frame.fault("routes", words, "routes", key, "key")
        for digit in sorted(self.random.sample("0123456789", self.pick([1, 1, 2, 3]))):
            routes[digit], words = self.wrong_number(f"route {digit} of {{F}}", 0, 999_999_999)
            frame.fault("routes", words, "routes", digit, "pair")

    def spoil_lead(self, frame: Frame) -> None:
        if self.chance(0.4):
            frame.spoil("lead", *self.wrong_kind('"lead" of {F}', "a string"))
            return
        lead, shown = self.pick([*TEXTS, ("cleer", '"cleer"'), ("Keep", '"Keep"')])
        frame.spoil("lead", lead, f'X6 Range: "lead" of {{F}} is {shown}, "clear" or "keep" is needed')

    def spoil_text(self, frame: Frame) -> None:
        fields, share = frame.fields, self.random.random()
        fields.pop("rows", None)
        fields.pop("body", None)
        if share < 0.1:
            frame.fault("text", 'X4 Absent: {F} has no "body" and no "rows"', "value")
        elif share < 0.25:
            words = 'X7 BodyAndRows: {F} has both "body" and "rows", leave out one'
            frame.fault("text", words, "body", "rows", "later")
            fields["rows"], fields["body"] = [], ""
            has_body, has_rows = self.pick([(False, False), (True, False), (False, True), (True, True)])
            if has_body:
                self.spoil_body(frame)
            if has_rows:
                self.spoil_rows(frame)
        elif share < 0.5:
            self.spoil_body(frame)
        else:
            self.spoil_rows(frame)

    def spoil_body(self, frame: Frame) -> None:
        if self.chance(0.4):
            frame.spoil("body", *self.wrong_kind('"body" of {F}', "a string"))
            return
        before = self.pick([0, 1, 11, 999, 1_500])
        text, ends = "\xa3\t" * (before // 2) + "A" * (before % 2), ("at most U+00FF is allowed", "above U+00FF")
        frame.fields["body"] = self.add_codes(frame, text, FAR_CODES, ("body",), 'X6 Range: {} "body" of {{F}}', ends)

    def add_codes(
        self, frame: Frame, text: str, codes: list[tuple[str, str]], name: Name, words: str, ends: tuple[str, str]
    ) -> str:
        """A text with refused characters added. Ten have a fault of their own, and the eleventh one for the others.

        The words have a gap for the number of a character.
        """
        places = []
        for _ in range(self.pick([1, 1, 1, 2, 10, 11, 12, 30])):
            c, shown = self.pick(codes)
            places.append(len(text))
            if len(places) <= 10:
                begin = words.format(f"character {len(text) + 1:,} of")
                frame.fault("text", f"{begin} is {shown}, {ends[0]}", *name, len(text), "character")
            text += c + self.pick(["", "", "B", "\x80~"])
        if more := places[10:]:
            begin = words.format("").replace(":  ", ": ")
            number = f"{len(more):,} more character{'s' * (len(more) > 1)}"
            frame.fault("text", f"{begin} has {number} {ends[1]}", *name, more[0], "character")
        return text

    def spoil_rows(self, frame: Frame) -> None:
        if self.chance(0.2):
            frame.spoil("rows", *self.wrong_kind('"rows" of {F}', "a list of strings", "a list"))
            return
        rows: list[object] = []
        frame.fields["rows"] = rows
        many = self.pick([997, 1_000, 1_200] if self.chance(0.02) else [1, 2, 5, 22, 23, 30])
        if many > 22:
            frame.fault("text", f"X6 Range: {{F}} has {many:,} rows, at most 22 are allowed", "rows", 22, "value")
        wrong = set(self.random.sample(range(many), min(many, 3 if many <= 22 else self.pick([0, 2, many]))))
        for number in range(many):
            rows.append(self.pick(["", "A ROW", "C" * 40, "\x80\x9f ~\x7f"]))
            if number in wrong:
                rows[number] = self.wrong_row(frame, number)

    def wrong_row(self, frame: Frame, number: int) -> object:
        here, share = f"row {number + 1:,} of {{F}}", self.random.random()
        if share < 0.3:
            value, words = self.wrong_kind(here, "a string")
            frame.fault("text", words, "rows", number, "value")
            return value
        before = self.pick([0, 1, 39, 40])
        first = len(frame.faults_of("text"))
        if share < 0.6:
            ends, codes = ("which no row may have", "that no row may have"), [*CODES, *FAR_CODES]
            gap = f"X9 RowCode: {{}} row {number + 1:,} of {{{{F}}}}"
            row = self.add_codes(frame, "A" * before, codes, ("rows", number), gap, ends)
        else:
            row = "A" * before + "B" * self.pick([41, 1_000])
        if len(row) > 40:
            words = f"X8 RowTooLong: {here} has {len(row):,} characters, at most 40 are allowed"
            frame.faults_of("text").insert(first, Fault(words, ("rows", number, "value")))
        return row

    def whole(self, words: str, frame: Frame | None, *name: str | int, first: Frame | None = None) -> None:
        self.whole_faults.append(Fault(words, name, frame, first))

    def some(self, frames: list[Frame]) -> list[Frame]:
        """A few of the frames, by their ids."""
        drawn = self.random.sample(frames, min(len(frames), self.pick([0, 0, 1, 2])))
        return sorted(drawn, key=lambda frame: frame.place)

    def spoil_whole(self, right: list[Frame]) -> None:
        """Faults of the base as a whole, of frames without a fault of their own: B5, B3, B1, B2."""
        for frame in self.some(right):
            size = self.pick([4_097, 10_000])
            frame.fields.pop("rows", None)
            frame.fields["body"] = "B" * size
            has = f"has {size:,} bytes, at most 4,096 are allowed"
            self.whole(f"B5 BodyTooLong: the body of frame {frame.id} {has}", frame, "body", "value")
        lasts = [frame for frame in right if frame.letter == "z" and self.chance(0.6)]
        for frame in sorted(lasts, key=lambda frame: frame.place):
            frame.fields["next"] = True
            words = f'B3 NextAfterZ: frame {frame.id} has "next", but z is the last frame of a page'
            self.whole(words, frame, "next", "pair")
        for frame in self.some(right):
            for _ in range(self.pick([1, 1, 2])):
                self.frames.append(again := Frame(*frame.place, self.plain_text()))
                words = f"B1 Duplicate: frame {frame.id} is defined already on line "
                self.whole(words, again, "id", "value", first=frame)
        if isinstance(outside := self.top.get("outside"), list):
            self.list_inside(outside, sorted({frame.page for frame in right if self.chance(0.15)}))

    def list_inside(self, outside: list[object], pages: list[int]) -> None:
        for page in pages:
            for _ in range(self.pick([1, 1, 2])):
                outside.insert(self.random.randrange(len(outside) + 1) if not self.top_faults else len(outside), page)
        for page in pages:
            words = f"B2 OutsideInside: page {page} is listed as outside, but the base has a frame of it"
            first = next(at for at, item in enumerate(outside) if type(item) is int and item == page)
            self.whole(words, None, "outside", first, "value")


class FaultyWalks(Written):
    """A right base, a tree of pages, with faults of its audit and with frames that no walk reaches."""

    def __init__(self, random: Random) -> None:
        super().__init__(random)
        self.ceiling = self.pick([0, 5, 50, 9_998])
        self.keyings = self.pick([0, 1, 1, 2, 2, 3, 65_535])
        self.groups = self.pick([None, None, "7", "7,9"])
        self.own = [int(group) for group in (self.groups or "").split(",") if group]
        self.reached: list[Frame] = []
        self.entry = self.add(self.page(), "a", "", 0)
        self.top["entry"] = self.entry.page
        share = self.random.random()
        if share < 0.1:
            self.spoil_entry()
        else:
            self.grow()
        self.random.shuffle(self.frames)
        if share >= 0.1:
            self.strand()
        self.outside()
        self.leave_unsought()
        for frame in self.frames:
            if not frame.fields.get("routes") and self.chance(0.5):
                frame.fields.pop("routes", None)

    def findings(self) -> Iterator[tuple[int, str, str]]:
        yield from super().findings()
        for frame in self.frames:
            for name, before, words in self.shown(frame):
                begin, end = self.span(frame, name)
                piece, start = self.sheet.text[begin:end], self.sheet.text[:begin]
                if name[0] == "rows":
                    is_bare = piece[0] == "'"
                    how = "has \\u00 in single quotation marks, which is shown as it is"
                    yield begin, "warning", f"{words} {how if is_bare else 'shows an escape as it is written'}"
                elif start.endswith(before) and piece == "\n":
                    yield begin, "warning", words

    def shown(self, frame: Frame) -> Iterator[tuple[Name, str, str]]:
        """What may be wrong with a frame's text: its name, what is before it, and words; how it is written decides."""
        line, body = f"LINEEND: a line of the body of frame {frame.id} ends with", str(frame.fields.get("body"))
        if body in FEEDS:
            how = "a line feed alone, so the text goes on in the same column"
            yield ("body", FEEDS[body], "character"), "", f"{line} {how}"
        if body in RETURNS:
            how = "CR LF as the file does: saved with LF, the text goes on in the same column"
            yield ("body", RETURNS[body], "character"), "\r", f"{line} {how}"
        for at, row in enumerate(frame.rows):
            if "\\u00" in str(row):
                yield ("rows", at, "value"), "", f"ESCAPE: row {at + 1} of frame {frame.id}"

    def leave_unsought(self) -> None:
        """Warnings of the frames that are closed to the caller and to which no way leads."""
        sought = {(page, "a") for frame in self.frames for page in frame.routes.values()}
        sought |= {(frame.page, chr(ord(frame.letter) + 1)) for frame in self.frames if frame.fields.get("next")}
        for frame in sorted(self.frames, key=lambda frame: frame.place):
            group = frame.fields.get("group")
            if group and group not in self.own and frame.place not in sought:
                words = f"UNSOUGHT: no key of any frame leads to frame {frame.id}, which belongs to group {group}"
                self.warnings.append(Fault(words, ("id", "value"), frame))

    def outside(self) -> None:
        every = [frame.routes for frame in self.reached if self.chance(0.2)]
        pages = [self.page() for _ in range(min(3, len(every)))]
        for routes, page in zip(every, pages):
            free = [digit for digit in "89" if digit not in routes]
            if free:
                routes[free[0]] = page
        self.top["outside"] = pages

    def add(self, page: int, letter: str, script: str | None, rank: int | None) -> Frame:
        frame = Frame(page, letter, self.plain_text())
        frame.fields["routes"] = {}
        frame.script, frame.rank = script, rank
        if self.chance(0.4):
            frame.fields["price"] = self.pick([0, self.ceiling])
        if self.own and self.chance(0.2):
            frame.fields["group"] = self.pick(self.own)
        self.frames.append(frame)
        return frame

    def spoil_entry(self) -> None:
        """The entry frame is missing or closed. Of the other frames those that are open are counted."""
        others = self.pick([0, 1, 1, 2, 5])
        for _ in range(others):
            self.add(self.page(), "a", None, None).fields["price"] = 9_999
        if self.chance(0.3):
            self.add(self.page(), "a", None, None).fields["group"] = 8
        if others:
            words = f"no key leads to {others} frame{'s' * (others > 1)} from the entry page"
            self.warnings.append(Fault(f"UNREACHED: {words}", ("entry", "value")))
        if self.chance(0.5):
            self.frames.remove(self.entry)
            words = f"ENTRYMISSING: the entry page {self.entry.page} has no frame a"
            self.whole_faults.append(Fault(words, ("entry", "value")))
        else:
            group = self.entry.fields["group"] = self.pick([1, 8, 65_535])
            words = f"frame {self.entry.id}, the entry page, is closed to these callers; it belongs to group {group}"
            self.tell(self.entry, f"ENTRYCLOSED: {words}", "group", "value")

    def grow(self) -> None:
        """The frames in the order of discovery, each judged when its turn comes."""
        self.reached = [self.entry]
        for frame in self.reached:
            self.offer(frame)
        for frame in self.reached:
            self.spoil(frame)

    def offer(self, frame: Frame) -> None:
        """Ways to new frames: by digits, then the next frame."""
        ways = self.pick([0, 1, 2, 3] if frame is self.entry else [0, 0, 0, 1])
        for digit in sorted(self.random.sample("1234", ways)):
            if len(self.pages) > 8:
                self.follow(frame, digit, self.page(), "a")
                frame.routes[digit] = self.reached[-1].page
        if frame.letter < "c" and self.chance(0.3) and frame.rank is not None and frame.rank < 2:
            self.follow(frame, "#", frame.page, chr(ord(frame.letter) + 1))
            frame.fields["next"] = True

    def follow(self, frame: Frame, key: str, page: int, letter: str) -> None:
        """A new frame, which leads back to the entry page, to the page that leads to it, or nowhere."""
        new = self.add(page, letter, f"{frame.script}{key}", 1)
        self.reached.append(new)
        rank, share = frame.rank, self.random.random()
        if rank and (rank > 1 or frame.letter == "a" and key != "#" and share < 0.3):
            new.routes["0"], new.rank = frame.page, rank + 1
        elif share < 0.4 and frame is not self.entry or rank is None:
            new.rank = None
        else:
            new.routes["0"] = self.entry.page

    def spoil(self, frame: Frame) -> None:
        """Faults of one frame, in the order of judging."""
        if self.chance(0.15):
            price = frame.fields["price"] = self.pick([self.ceiling + 1, 9_999])
            words = f"PRICE: frame {frame.id} costs {price}, the ceiling is {self.ceiling}"
            self.tell(frame, words + frame.keys, "price", "value")
        if self.chance(0.15):
            self.touch(frame)
        for key in "56789#":
            if self.chance(0.05):
                self.lead_astray(frame, key)
        if frame.rank is None:
            words = f"NORETURN: no keys lead from frame {frame.id} back to the entry page"
            self.tell(frame, words + frame.keys, "id", "value")
        elif frame.rank > self.keyings:
            away = f"{frame.rank} {'key' if frame.rank == 1 else 'keys'} away"
            allowed = f"at most {self.keyings} {'is' if self.keyings == 1 else 'are'} allowed"
            words = f"NORETURN: from frame {frame.id} the entry page is {away}, {allowed}"
            self.tell(frame, words + frame.keys, "id", "value")

    def tell(self, frame: Frame, words: str, *name: str | int) -> None:
        self.whole_faults.append(Fault(words, name, frame))

    def touch(self, frame: Frame) -> None:
        frame.fields.pop("rows", None)
        frame.fields.pop("body", None)
        if self.chance(0.4):
            end = self.pick(["\x8d", "A\x8d", "\x8d" * 3])
            frame.fields["rows"] = [self.pick(["", "A", "A" * 40, "\x8d"]) for _ in range(21)] + [end]
            words = f"TOUCHES: row 22 of frame {frame.id} has double height, which writes into the last row"
            self.tell(frame, words + frame.keys, "rows", 21, "value")
            self.hide(frame)
            return
        frame.fields["body"], offset = self.pick(TOUCHING)
        words = f"TOUCHES: byte {offset:,} of the body of frame {frame.id} writes into a service row, from start 0"
        self.tell(frame, words + frame.keys, "body", offset, "character")

    def hide(self, frame: Frame) -> None:
        """Warnings of the rows with text below a row with double height that isn't below one itself."""
        covered = False
        for at, row in enumerate(map(str, frame.rows)):
            if covered and any("!" <= code <= "\x7f" for code in row):
                words = f"HIDDEN: row {at + 1} of frame {frame.id} is hidden by the double height of row {at}"
                self.warnings.append(Fault(words, ("rows", at, "value"), frame))
            covered = "\x8d" in row and not covered

    def lead_astray(self, frame: Frame, key: str) -> None:
        """A way to a frame that is missing or closed."""
        keys = f" (keys {frame.script}{key})"
        if key == "#" and frame.fields.get("next") or not self.pages:
            return
        name: Name = ("next", "pair") if key == "#" else ("routes", key, "pair")
        if key == "#":
            page, letter = frame.page, chr(ord(frame.letter) + 1)
            frame.fields["next"] = True
            lacks = f"frame {page}{letter}, which the base lacks"
        else:
            page, letter = self.page(), "a"
            frame.routes[key] = page
            lacks = f"page {page}, which has no frame a"
        if self.chance(0.5):
            self.tell(frame, f"MISSING: key {key} of frame {frame.id} leads to {lacks}{keys}", *name)
            return
        closed = Frame(page, letter, self.plain_text())
        closed.fields["routes"] = {}
        group = closed.fields["group"] = self.pick([8, 65_534])
        self.frames.append(closed)
        words = f"frame {closed.id}, which is closed to these callers; it belongs to group {group}"
        self.tell(frame, f"CLOSED: key {key} of frame {frame.id} leads to {words}{keys}", *name)

    def strand(self) -> None:
        """Frames that no walk reaches: those that are open to the caller are reported, in the order of their ids."""
        stranded = []
        for _ in range(self.pick([0, 0, 1, 2])):
            page = self.page() if self.pages else 1
            for letter in self.pick(["a", "ab", "b"]):
                frame = Frame(page, letter, self.plain_text())
                frame.fields |= {"routes": {"0": self.entry.page}, "price": 9_999}
                group = self.pick([None, None, None, 8, *self.own])
                if group:
                    frame.fields["group"] = group
                if group != 8:
                    stranded.append(frame)
                self.frames.insert(self.random.randrange(len(self.frames) + 1), frame)
        for frame in sorted(stranded, key=lambda frame: frame.place):
            words = f"UNREACHED: no key leads to frame {frame.id} from the entry page"
            self.warnings.append(Fault(words, ("id", "value"), frame))
