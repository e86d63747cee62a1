"""A TOML text: where it writes each key, value, element and character, and the tree that it means.

A walk of its own, from the grammar of TOML 1.1. Python reads TOML 1.0 and makes a CR LF inside a string an LF: so the
walk spells each expression in TOML 1.0, on one line, and Python judges what they mean together.
"""

import re
import tomllib
from bisect import bisect_right
from collections.abc import Callable, Iterator
from dataclasses import dataclass, field
from functools import lru_cache
from typing import NamedTuple, TypeGuard, TypeVar

Table = dict[str, object]
Member = TypeVar("Member")

MOST_NESTED = 80
SPACES = re.compile(r"[ \t]*")
BLANKS = re.compile(r"(?:[ \t\n]|\r\n|#[^\x00-\x08\n-\x1f\x7f]*(?=\r?\n|\Z))*")
LINE_END = re.compile(r"\r?\n")
# A backslash that ends a line, with the blanks after it.
JOINT = re.compile(r"\\[ \t]*\r?\n(?:[ \t\n]|\r\n)*")
# What a string has as it is, by its quotation mark.
PLAIN = {mark: re.compile(rf"[^{mark}\\\x00-\x08\n-\x1f\x7f]+") for mark in "\"'"}
BARE = re.compile(r"[A-Za-z0-9_-]+")
SCALAR = re.compile(r"[^,\]}#\r\n]*[^,\]}#\r\n \t]")
ESCAPE = re.compile(r'[befnrt"\\]|x[0-9A-Fa-f]{2}|u[0-9A-Fa-f]{4}|U[0-9A-Fa-f]{8}')
LETTERS = {"b": "\b", "e": "\x1b", "f": "\f", "n": "\n", "r": "\r", "t": "\t", '"': '"', "\\": "\\"}
CONTROLS = {chr(code) for code in (*range(0x20), 0x7F)} - {"\t"}
# What TOML 1.0, or Python, knows otherwise of dates and times: no seconds, the second 60 and the year 0.
OLD_TIMES = [
    (re.compile(r"\A((?:\d{4}-\d\d-\d\d[Tt ])?\d\d:\d\d)(?=[Zz+-]|\Z)"), r"\1:00"),
    (re.compile(r"\A((?:\d{4}-\d\d-\d\d[Tt ])?\d\d:\d\d):60"), r"\1:59"),
    (re.compile(r"\A0000-"), "0004-"),
]


class NotToml(ValueError):
    """Nothing of TOML begins there."""


class Span(NamedTuple):
    """The offsets of the first character and after the last."""

    begin: int
    end: int


class Character(NamedTuple):
    """A character of a string, and where it is written."""

    text: str
    begin: int
    end: int


@dataclass
class Value:
    """A value: its span, its spelling in TOML 1.0, and if it has them its characters, elements or pairs."""

    span: Span
    spelled: str
    characters: list[Character] = field(default_factory=list)
    elements: list["Value"] = field(default_factory=list)
    pairs: list["Expression"] = field(default_factory=list)


class Part(NamedTuple):
    """A part of a key: its text, and its span with the quotation marks."""

    name: str
    begin: int
    end: int


@dataclass
class Expression:
    """A pair, which has a value, or a header, which has none: its parts and its span."""

    parts: list[Part]
    span: Span
    value: Value | None = None
    is_element: bool = False

    @property
    def names(self) -> tuple[str, ...]:
        return tuple(part.name for part in self.parts)

    @property
    def spelled(self) -> str:
        """Its spelling in TOML 1.0."""
        name = ".".join(map(string, self.names))
        if self.value:
            return f"{name} = {self.value.spelled}"
        return f"[[{name}]]" if self.is_element else f"[{name}]"


def string(text: str) -> str:
    """A basic string on one line."""
    return '"' + "".join(c if " " <= c != "\x7f" and c not in '"\\' else f"\\U{ord(c):08X}" for c in text) + '"'


def old_scalar(text: str) -> str:
    for pattern, old in OLD_TIMES:
        text = pattern.sub(old, text)
    return text


class Walk:
    """A walk over a text; each reading moves it."""

    def __init__(self, text: str) -> None:
        self.text, self.at, self.depth = text, 0, 0

    def has(self, *words: str) -> bool:
        return self.text.startswith(words, self.at)

    def take(self, word: str) -> None:
        if not self.has(word):
            raise NotToml(self.at)
        self.at += len(word)

    def match(self, pattern: re.Pattern[str]) -> str | None:
        """Takes what the pattern matches, if it does."""
        found = pattern.match(self.text, self.at)
        self.at = found.end() if found else self.at
        return found[0] if found else None

    def need(self, pattern: re.Pattern[str]) -> str:
        found = self.match(pattern)
        if found is None:
            raise NotToml(self.at)
        return found

    def span_from(self, begin: int) -> Span:
        return Span(begin, self.at)

    def escape(self) -> str:
        """The character that an escape writes; the walk is after its backslash."""
        word = self.need(ESCAPE)
        if word in LETTERS:
            return LETTERS[word]
        code = int(word[1:], 16)
        if 0xD800 <= code < 0xE000 or code > 0x10FFFF:
            raise NotToml(self.at)
        return chr(code)

    def character(self, mark: str, is_long: bool) -> str:
        c = self.text[self.at : self.at + 1]
        self.at += 1
        if c == "\\" and mark == '"':
            return self.escape()
        ends_line = is_long and (c == "\n" or c == "\r" and self.has("\n"))
        if not c or c in CONTROLS and not ends_line:
            raise NotToml(self.at)
        return c

    def ends(self, marks: str) -> bool:
        """Takes the marks that end a string, if they are next. Up to two before the last three are of the string."""
        run = len(self.text[self.at : self.at + 6]) - len(self.text[self.at : self.at + 6].lstrip(marks[0]))
        if len(marks) == 3 and run == 6:
            raise NotToml(self.at)
        is_end = run == 3 if len(marks) == 3 else run > 0
        self.at += len(marks) if is_end else 0
        return is_end

    def string(self, is_key: bool = False) -> list[Character]:
        """The characters of a string, each with its span."""
        mark = self.text[self.at]
        is_long = not is_key and self.has(mark * 3)
        marks = mark * 3 if is_long else mark
        self.take(marks)
        if is_long:
            self.match(LINE_END)
        characters: list[Character] = []
        while not self.ends(marks):
            begin = self.at
            if plain := self.match(PLAIN[mark]):
                characters += [Character(c, at, at + 1) for at, c in enumerate(plain, begin)]
            elif not (is_long and mark == '"' and self.match(JOINT)):
                characters.append(Character(self.character(mark, is_long), begin, self.at))
        return characters

    def part(self) -> Part:
        begin = self.at
        name = "".join(c.text for c in self.string(is_key=True)) if self.has('"', "'") else self.need(BARE)
        return Part(name, begin, self.at)

    def key(self) -> list[Part]:
        """The parts of a key; the walk ends after the blanks that follow it."""
        parts = [self.part()]
        self.match(SPACES)
        while self.has("."):
            self.take(".")
            self.match(SPACES)
            parts.append(self.part())
            self.match(SPACES)
        if len(parts) > MOST_NESTED:
            raise NotToml(self.at)
        return parts

    def value(self) -> Value:
        begin = self.at
        if self.has('"', "'"):
            characters = self.string()
            return Value(self.span_from(begin), string("".join(c.text for c in characters)), characters)
        if self.has("["):
            elements = self.members("[", "]", self.value)
            inside = ", ".join(element.spelled for element in elements)
            return Value(self.span_from(begin), f"[{inside}]", elements=elements)
        if self.has("{"):
            pairs = self.members("{", "}", self.pair)
            return Value(self.span_from(begin), f"{{{', '.join(pair.spelled for pair in pairs)}}}", pairs=pairs)
        spelled = old_scalar(self.need(SCALAR))
        return Value(self.span_from(begin), spelled)

    def members(self, opening: str, closing: str, member: Callable[[], Member]) -> list[Member]:
        """What an array or an inline table holds."""
        self.depth += 1
        if self.depth > MOST_NESTED:
            raise NotToml(self.at)
        found = []
        self.take(opening)
        self.match(BLANKS)
        while not self.has(closing):
            found.append(member())
            self.match(BLANKS)
            if not self.has(closing):
                self.take(",")
                self.match(BLANKS)
        self.take(closing)
        self.depth -= 1
        return found

    def pair(self) -> Expression:
        begin = self.at
        parts = self.key()
        self.take("=")
        self.match(SPACES)
        value = self.value()
        return Expression(parts, self.span_from(begin), value)

    def expression(self) -> Expression:
        begin = self.at
        for opening, closing in ("[[", "]]"), ("[", "]"):
            if self.has(opening):
                self.take(opening)
                self.match(SPACES)
                parts = self.key()
                self.take(closing)
                return Expression(parts, self.span_from(begin), is_element=opening == "[[")
        return self.pair()

    def expressions(self) -> Iterator[Expression]:
        if self.has("\ufeff"):
            self.take("\ufeff")
        self.match(BLANKS)
        while self.at < len(self.text):
            yield self.expression()
            self.match(SPACES)
            if self.at < len(self.text) and not self.has("#", "\n", "\r\n"):
                raise NotToml(self.at)
            self.match(BLANKS)


def expressions(text: str) -> list[Expression]:
    """The expressions of a text; ValueError if one can't be read."""
    return list(Walk(text).expressions())


def tree_of(found: list[Expression]) -> Table:
    """The tree of the expressions; ValueError if they aren't TOML together."""
    return tomllib.loads("\n".join(expression.spelled for expression in found))


def is_integer(value: object) -> TypeGuard[int]:
    return isinstance(value, int) and not isinstance(value, bool)


def fits_64_bits(value: object) -> bool:
    """Whether each integer of the tree is one of 64 bits: others are no TOML."""
    if isinstance(value, dict):
        return all(map(fits_64_bits, value.values()))
    if isinstance(value, list):
        return all(map(fits_64_bits, value))
    return not is_integer(value) or -(2**63) <= value < 2**63


class Parsed(NamedTuple):
    text: str
    expressions: list[Expression]
    tree: Table


@lru_cache(maxsize=8)
def parsed(data: bytes) -> Parsed | None:
    """What the bytes are, or None if they aren't TOML."""
    try:
        text = data.decode()
        found = expressions(text)
        tree = tree_of(found)
    except (ValueError, RecursionError):
        return None
    return Parsed(text, found, tree) if fits_64_bits(tree) else None


class Lines:
    """The lines and columns of a text, both from 1. A byte order mark has no column."""

    def __init__(self, text: str) -> None:
        self.text, self.starts = text, [0, *(found.end() for found in re.finditer("\n", text))]

    def place(self, at: int) -> tuple[int, int]:
        line = bisect_right(self.starts, at)
        is_marked = line == 1 and self.text[:1] == "\ufeff" and at > 0
        return line, at - self.starts[line - 1] + 1 - is_marked

    def extent(self, begin: int, end: int) -> tuple[int, ...]:
        """Line, column, last line and the column after the last character, on its line."""
        if begin == end:
            return self.place(begin) * 2
        line, column = self.place(end - 1)
        return *self.place(begin), line, column + 1
