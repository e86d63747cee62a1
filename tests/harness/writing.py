"""Spells keys and values in the ways of TOML, and knows where each was written."""

import re
from collections.abc import Iterator, Mapping, Sequence
from random import Random
from typing import TypeVar

Item = TypeVar("Item")
# What is written, by the keys and indexes that lead to it, from `top` or the index of a frame: its `key`, `value`,
# `pair`, `character`.
Name = tuple[str | int, ...]

COMMENTS = ["", "#", "# [[frame]]", '# id = "1a"', "# '''", '# """ ] }', "# \u20ac \u00e9\t\U0001f600"]
# The characters of a text that is so long aren't marked.
LONG = 3_000
# What a literal string can hold, on one line and on several.
LITERAL = re.compile(r"[^'\x00-\x08\n-\x1f\x7f]*")
LITERAL_LINES = re.compile(r"(?:(?!''')[^\x00-\x08\n-\x1f\x7f]|\r?\n)*")
NAMED = {"\x08": "b", "\t": "t", "\n": "n", "\x0c": "f", "\r": "r", "\x1b": "e", '"': '"', "\\": "\\"}
MARK = re.compile("([\ue000\ue001])([\U000f0000-\U0010ffff]{2})")


class Chance:
    """Draws from one source of chance, so that a seed gives the same again."""

    def __init__(self, random: Random) -> None:
        self.random = random

    def chance(self, share: float) -> bool:
        return self.random.random() < share

    def pick(self, items: Sequence[Item]) -> Item:
        return self.random.choice(items)


class Pen(Chance):
    """Spells keys and values in one of the ways of TOML 1.1, with marks where each thing begins and ends."""

    has_marks = True

    def __init__(self, random: Random) -> None:
        super().__init__(random)
        self.eol = self.pick(["\n", "\n", "\r\n"])
        self.is_odd = self.pick([False, True, True])
        self.names: list[Name] = []

    def begin(self, name: Name, *what: str | int) -> tuple[str, str]:
        """Marks where a thing begins, and gives the mark of its end. A sheet takes the marks out of the text."""
        if not (name and self.has_marks):
            return "", ""
        high, low = divmod(len(self.names), 60_000)
        self.names.append((*name, *what))
        number = chr(0xF0000 + high) + chr(0xF0000 + low)
        return f"\ue000{number}", f"\ue001{number}"

    def mark(self, text: str, name: Name, *what: str | int) -> str:
        begin, end = self.begin(name, *what)
        return f"{begin}{text}{end}"

    def character(self, name: Name, at: int, spelled: str, text: str) -> str:
        """A character of a text, marked by its index, if the text isn't long."""
        is_marked = self.has_marks and len(text) < LONG
        return self.mark(spelled, name, at, "character") if is_marked else spelled

    def number(self, value: int) -> str:
        forms = [str(value)]
        if self.is_odd and value >= 0:
            forms += [f"+{value}", f"0x{value:X}", f"0x{value:x}", f"0o{value:o}", f"0b{value:b}"]
            forms += ["_".join(str(value)), f"{value:_}"]
        return self.pick(forms)

    def escape(self, c: str) -> str:
        forms = [f"\\u{ord(c):04X}"] * 2 if ord(c) < 0x10000 else []
        forms.append(f"\\U{ord(c):08x}")
        if self.is_odd and ord(c) < 0x100:
            forms.append(f"\\x{ord(c):02x}")
        named = [f"\\{NAMED[c]}"] * 4 if c in NAMED and (self.is_odd or c != "\x1b") else []
        return self.pick(forms + named)

    def escaped(self, text: str, name: Name = (), in_lines: bool = False) -> str:
        """The inside of a basic string, of one line or of several; with a name its characters are marked."""
        spelled = ""
        for at, c in enumerate(text):
            if in_lines and c not in " \t\r\n" and self.chance(0.05):
                spelled += "\\" + self.pick(["", "  "]) + self.eol + self.pick(["", "   ", self.eol + "\t"])
            is_plain = (c >= " " or c == "\t") and c not in '"\\\x7f' and not (self.is_odd and self.chance(0.05))
            is_quote = in_lines and c == '"' and text[at - 1 : at] != '"' and 0 < at < len(text) - 1
            ends_line = in_lines and at > 0 and (c == "\n" or text[at : at + 2] == "\r\n")
            piece = c if is_plain or is_quote or ends_line else self.escape(c)
            spelled += self.character(name, at, piece, text)
        return spelled

    def string(self, text: str, name: Name) -> str:
        # A line end right after the marks isn't of the text.
        first = self.eol if text[:1] in ("\r", "\n") else self.pick(["", self.eol])
        forms = ["basic"]
        if self.is_odd and not text.startswith("\n"):
            forms += ["long basic"] * (3 if "\n" in text else 1)
        if self.is_odd and LITERAL.fullmatch(text):
            forms.append("literal")
        if self.is_odd and LITERAL_LINES.fullmatch(text):
            forms += ["long literal"] * (3 if "\n" in text else 1)
        form = self.pick(forms)
        is_long, mark = form.startswith("long"), "'" if form.endswith("literal") else '"'
        if mark == '"':
            inside = self.escaped(text, name, is_long)
        else:
            inside = "".join(self.character(name, at, c, text) for at, c in enumerate(text))
        return f"{mark * 3}{first}{inside}{mark * 3}" if is_long else f"{mark}{inside}{mark}"

    def key(self, text: str) -> str:
        is_bare = re.fullmatch("[A-Za-z0-9_-]+", text)
        forms = [text] * 4 if is_bare else []
        if self.is_odd or not is_bare:
            forms.append(f'"{self.escaped(text)}"')
            forms += [f"'{text}'"] if LITERAL.fullmatch(text) else []
        return self.pick(forms)

    def named_key(self, key: str, name: Name) -> str:
        return self.mark(self.key(key), name, "key")

    def space(self) -> str:
        return self.pick(["", " ", "  ", "\t"]) if self.is_odd else " "

    def dot(self) -> str:
        return f"{self.space()}.{self.space()}" if self.is_odd else "."

    def blank(self) -> str:
        """What may be between the elements of an array, and in TOML 1.1 between those of an inline table."""
        forms = ["", " "]
        if self.is_odd:
            forms += ["\t", self.eol, f"{self.eol}    ", f" {self.pick(COMMENTS)}{self.eol}"]
        return self.pick(forms)

    def joined(self, opening: str, parts: list[str], closing: str) -> str:
        if not parts:
            return opening + self.blank() + closing
        last = self.pick(["", "", ","]) if self.is_odd else ""
        inside = ",".join(self.blank() + part + self.blank() for part in parts)
        return opening + inside + last + self.blank() + closing

    def value(self, value: object, name: Name) -> str:
        return self.mark(self.unmarked(value, name), name, "value")

    def unmarked(self, value: object, name: Name) -> str:
        if isinstance(value, bool):
            return str(value).lower()
        if isinstance(value, int):
            return self.number(value)
        if isinstance(value, str):
            return self.string(value, name)
        if isinstance(value, list):
            return self.joined("[", [self.value(one, (*name, at)) for at, one in enumerate(value)], "]")
        if isinstance(value, dict):
            return self.joined("{", [pair for key, one in value.items() for pair in self.pairs(key, one, name)], "}")
        return str(value)

    def pairs(self, key: str, value: object, table: Name) -> Iterator[str]:
        """The pair of a key in a table of this name; of a table often one for each of its keys."""
        if isinstance(value, dict) and value and self.is_odd and self.chance(0.3):
            yield from (self.pair((key, inner), one, table) for inner, one in value.items())
        else:
            yield self.pair((key,), value, table)

    def pair(self, keys: tuple[str, ...], value: object, table: Name) -> str:
        """A pair by a key that may have dots. The value of an outer key is the key from there on."""
        begun, key_ends, pair_ends, name = "", "", "", table
        for at, key in enumerate(keys):
            name = (*name, key)
            pair, pair_end = self.begin(name, "pair")
            outer, outer_end = self.begin(name, "value") if at + 1 < len(keys) else ("", "")
            begun += f"{self.dot() if at else ''}{pair}{outer}{self.named_key(key, name)}"
            key_ends, pair_ends = outer_end + key_ends, pair_end + pair_ends
        return f"{begun}{key_ends}{self.space()}={self.space()}{self.value(value, name)}{pair_ends}"


class PlainPen(Pen):
    """Spells all in TOML 1.0 without marks."""

    has_marks = False

    def __init__(self, random: Random) -> None:
        super().__init__(random)
        self.eol, self.is_odd = "\n", False

    def base(self, tree: Mapping[str, object], in_tables: bool = True) -> bytes:
        """The text of a base's tree, whose frames are tables of their own if they can be."""
        frames = tree.get("frame")
        is_listed = in_tables and isinstance(frames, list) and all(isinstance(frame, dict) for frame in frames)
        tables = frames if is_listed and isinstance(frames, list) else []
        top = {key: value for key, value in tree.items() if not (tables and key == "frame")}
        texts = ("".join(f"{self.pair((key,), table[key], ())}\n" for key in table) for table in [top, *tables])
        return "[[frame]]\n".join(texts).encode()


class FirstPen(PlainPen):
    """Spells all in the first of its ways."""

    def pick(self, items: Sequence[Item]) -> Item:
        return items[0]


class Sheet:
    """The text as it is written, and the span of each thing where it was written first."""

    def __init__(self, pen: Pen) -> None:
        self.pen = pen
        self.text = "\ufeff" if pen.is_odd and pen.chance(0.2) else ""
        self.spans: dict[Name, tuple[int, int]] = {}

    def place(self, at: int) -> tuple[int, int]:
        """Line and column of an offset. A byte order mark has no column."""
        *before, last = self.text[:at].removeprefix("\ufeff").split("\n")
        return len(before) + 1, len(last) + 1

    def put(self, text: str) -> None:
        """Writes a text without its marks, and notes where they were."""
        begun: dict[str, int] = {}
        pieces, at, length = [self.text], 0, len(self.text)
        for found in MARK.finditer(text):
            pieces.append(text[at : found.start()])
            length += found.start() - at
            at = found.end()
            if found[1] == "\ue000":
                begun[found[2]] = length
            else:
                high, low = (ord(c) - 0xF0000 for c in found[2])
                self.spans.setdefault(self.pen.names[high * 60_000 + low], (begun[found[2]], length))
        self.text = "".join([*pieces, text[at:]])

    def expression(self, text: str) -> None:
        pen = self.pen
        for _ in range(pen.pick([0, 0, 0, 1, 2])):
            self.put(pen.space() * pen.is_odd + pen.pick(COMMENTS) + pen.eol)
        self.put(pen.pick(["", "", "  ", "\t"]) if pen.is_odd else "")
        self.put(text + pen.pick(["", "", " ", f" {pen.pick(COMMENTS)}"]) + pen.eol)

    def header(self, keys: Sequence[tuple[str, Name]], is_element: bool = False) -> None:
        """A header of keys, each with the name of its table. It is the value of each that has a name."""
        pad = self.pen.space() if self.pen.is_odd else ""
        inside = pad + self.pen.dot().join(self.pen.named_key(*key) for key in keys) + pad
        text = f"[[{inside}]]" if is_element else f"[{inside}]"
        for _, name in keys:
            text = self.pen.mark(self.pen.mark(text, name, "pair"), name, "value")
        self.expression(text)
