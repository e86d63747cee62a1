"""Ids, keys, a caller's groups, frames and the base that they make; what a run asks, and what it answers."""

from collections.abc import Callable, Iterable
from dataclasses import dataclass
from enum import Enum
from functools import wraps
from typing import NamedTuple, ParamSpec

MOST_BYTES = 16_777_216
MOST_PAGE = 999_999_999
MOST_LISTED = 65_535
MOST_GROUP = 65_535
MOST_GROUPS = 16
DIGITS = "0123456789"

# The word of a key that a caller presses: a digit, #, *#, *00 or *09.
Key = str
Groups = tuple[int, ...]
Parameters = ParamSpec("Parameters")


class Answer(NamedTuple):
    """How a run has to end, and what it has to print on each output."""

    status: int
    stdout: str = ""
    stderr: str = ""


class Refused(Exception):
    """What is printed of a text or word that is refused, and the status."""

    def __init__(self, words: str, status: int = 3) -> None:
        super().__init__(words)
        self.answer = Answer(status, "", f"{words}\n")


def answers(judge: Callable[Parameters, Answer]) -> Callable[Parameters, Answer]:
    """A judge that answers too if a text or word is refused."""

    @wraps(judge)
    def answer(*words: Parameters.args, **named: Parameters.kwargs) -> Answer:
        try:
            return judge(*words, **named)
        except Refused as fault:
            return fault.answer

    return answer


def lines_text(lines: Iterable[str]) -> str:
    return "".join(f"{line}\n" for line in lines)


def with_advice(answer: Answer, file: object) -> Answer:
    """What `list`, `map` and `show` answer: of a refused base they say too which command says where."""
    advice = f"pageaudit lint {file} says where\n" if answer.status == 3 else ""
    return answer._replace(stderr=answer.stderr + advice)


class FrameId(NamedTuple):
    """The id of a frame, in the order of ids."""

    page: int
    letter: str

    def __str__(self) -> str:
        return f"{self.page}{self.letter}"

    @property
    def following(self) -> "FrameId":
        return FrameId(self.page, chr(ord(self.letter) + 1))


class Found(Enum):
    """What a caller gets who seeks a frame."""

    FOUND = "FOUND"
    MISSING = "MISSING"
    CLOSED = "CLOSED"


@dataclass
class Frame:
    id: FrameId
    price: int
    group: int | None
    next: bool
    routes: dict[str, int]
    keep: bool
    body: bytes

    def is_open(self, groups: Groups) -> bool:
        return self.group is None or self.group in groups

    def sought(self, key: Key) -> FrameId | None:
        """The id that a key of the frame seeks, or None if it isn't offered."""
        if key == "#":
            return self.id.following if self.next else None
        return FrameId(self.routes[key], "a") if key in self.routes else None


@dataclass
class Base:
    entry: int
    outside: set[int]
    frames: dict[FrameId, Frame]

    @property
    def entry_id(self) -> FrameId:
        return FrameId(self.entry, "a")

    def seek(self, id: FrameId, groups: Groups) -> Found:
        """What a caller of these groups gets."""
        frame = self.frames.get(id)
        if frame is None:
            return Found.MISSING
        return Found.FOUND if frame.is_open(groups) else Found.CLOSED

    def unopened(self, groups: Groups) -> str | None:
        """The line of a session that can't be opened by a caller of these groups, or None."""
        found = self.seek(self.entry_id, groups)
        return None if found == Found.FOUND else f"ENTRY{found.value} {self.entry_id}\n"


def is_numeral(text: str) -> bool:
    return text.isascii() and text.isdigit() and (text == "0" or text[0] != "0")


def id_in(text: str) -> FrameId | None:
    """The id that the text spells, or None."""
    page, letter = text[:-1], text[-1:]
    if not is_numeral(page) or int(page) > MOST_PAGE or not "a" <= letter <= "z":
        return None
    return FrameId(int(page), letter)


def group_flaw(word: str, before: list[int]) -> str | None:
    """What is wrong with a group's number after these groups, or None."""
    if not is_numeral(word):
        return "Number"
    if not 1 <= int(word) <= MOST_GROUP or len(before) == MOST_GROUPS:
        return "Range"
    return "Order" if before and int(word) <= before[-1] else None


def groups_in(words: list[str]) -> Groups:
    """The groups that the words spell; Refused with what is wrong with the first wrong word."""
    groups: list[int] = []
    for word in words:
        if flaw := group_flaw(word, groups):
            raise Refused(flaw)
        groups.append(int(word))
    return tuple(groups)


def keys_in(text: str) -> list[Key]:
    """The words of the keys; Refused with the offset of the first that can't be read."""
    words, at = [], 0
    while at < len(text):
        word = next((word for word in ("*00", "*09", "*#", "#", *DIGITS) if text.startswith(word, at)), None)
        if word is None:
            raise Refused(f"keys: I3 BadKey {len(text[:at].encode())}", 2)
        words.append(word)
        at += len(word)
    return words


@dataclass(frozen=True)
class Policy:
    """What a caller is promised: a ceiling of prices, at most this many keys back, and that in these groups."""

    ceiling: int = 9_999
    keyings: int = 65_535
    groups: Groups = ()


@dataclass(frozen=True)
class Asked:
    """The options of a run: the limits, and the word of `--groups` if it is given."""

    ceiling: int = 9_999
    keyings: int = 65_535
    option: str | None = None

    @property
    def limits(self) -> list[str]:
        return ["--ceiling", str(self.ceiling), "--keyings", str(self.keyings)]

    @property
    def caller(self) -> list[str]:
        return [] if self.option is None else ["--groups", self.option]

    @property
    def groups(self) -> Groups:
        """The caller's groups: none if the option isn't given."""
        try:
            return () if self.option is None else groups_in(self.option.split(","))
        except Refused:
            raise Refused("groups: I4 BadGroups", 2) from None

    @property
    def policy(self) -> Policy:
        return Policy(self.ceiling, self.keyings, self.groups)
