"""What the HTML file of a base shows of each frame: its screen as text, and with what it conceals, its price, its
group, the line of its id, its ways, its faults with what lint says of them, and the cell that it touches.
"""

from dataclasses import dataclass, replace
from typing import NamedTuple

from .audit import Survey
from .base import Base, Found, Frame, FrameId, Key, Policy
from .certificate import KEYS
from .faults import base_of
from .lint import Audited, is_line
from .looks import revealed, text
from .map import View, part_of
from .places import Piece, Places, What
from .screen import STATES, lead, run, step, touches
from .screens import codes, frames_of
from .toml import Lines, parsed


class Way(NamedTuple):
    """A way as it is shown: an empty class for a link, and the text."""

    look: str
    key: Key
    text: str


@dataclass
class Section:
    id: str
    unreached: bool
    text: str
    revealed: str
    price: str
    group: str
    place: str
    keeps: bool
    ways: list[Way]
    said: list[str]
    faults: list[str]
    touched: int | None

    def is_as(self, wanted: "Section") -> bool:
        """Whether it is the wanted one, hints aside."""
        said = len(self.said) == len(wanted.said) and all(map(is_line, wanted.said, self.said))
        return said and replace(self, said=wanted.said) == wanted


class Verdict(NamedTuple):
    """The faults before the sections, the verdict, and for which caller and limits it is."""

    before: list[str]
    words: str
    asked: str


def touched(frame: Frame, faults: list[str]) -> int | None:
    """The position of the first cell that a touching byte writes from the start of its fault's line."""
    for line in faults:
        if line.startswith("TOUCHES "):
            _, _, _, offset, _, at, *_ = line.split()
            before, byte = lead(frame.keep) + frame.body[: int(offset)], frame.body[int(offset)]
            start = next(state for state in STATES if state.at == int(at) and touches(run(state, before), byte))
            return step(run(start, before), byte).written[0].at
    return None


class Pages:
    """The sections of a base of some bytes, or of the part that a view shows; Refused if none, or it lacks the page."""

    def __init__(self, name: str, data: bytes, policy: Policy, view: View) -> None:
        self.name, self.base = name, base_of(data)
        self.survey = Survey(self.base, policy)
        self.shown = part_of(self.base, policy.groups, view)
        read = parsed(data)
        assert read is not None
        text, expressions, tree = read
        self.audited, self.lines = Audited(tree, Places(text, expressions), policy), Lines(text)
        words = (words.partition(": ")[2] for _, words in self.audited.faults())
        told = zip(self.survey.faults(), words)
        self.told = {line: words for line, words in told if not line.startswith("ENTRY")}

    def faulty(self) -> list[FrameId]:
        """The frame of each fault but those of the entry frame, in the audit's order, frame by frame."""
        return [id for id in sorted(self.shown) for _ in self.section(id).faults]

    def place(self, id: FrameId) -> str:
        """The name of the file and the line of the frame's id."""
        value = self.audited.places.find(Piece(What.VALUE, self.audited.indexes[id], ("id",)))
        return f"{self.name}:{self.lines.place(value.begin)[0]}"

    def way(self, frame: Frame, key: Key) -> Way | None:
        """None if it isn't offered."""
        to = frame.sought(key)
        if to is None:
            return None
        found = self.base.seek(to, self.survey.groups)
        if found == Found.FOUND:
            return Way("" if to in self.shown else "elsewhere", key, str(to))
        if found == Found.MISSING and key != "#" and to.page in self.base.outside:
            return Way("outside", key, str(to.page))
        return Way(found.value.lower(), key, str(to))

    def section(self, id: FrameId) -> Section:
        frame, is_reached = self.base.frames[id], id in self.survey.scripts
        screen = codes(self.base, frames_of(self.base, self.survey.groups, id))
        texts = text(screen), revealed(screen)
        ways = [way for key in KEYS if (way := self.way(frame, key))]
        faults = list(self.survey.frame_faults(id)) if is_reached else []
        at, price = touched(frame, faults), f"{frame.price}p"
        group, said = f"group {frame.group}" if frame.group else "", [self.told[line] for line in faults]
        place = self.place(id)
        return Section(str(id), not is_reached, *texts, price, group, place, frame.keep, ways, said, faults, at)

    def sections(self) -> list[Section]:
        return [self.section(id) for id in sorted(self.shown)]


def counted(number: int, thing: str) -> str:
    return f"{number} {thing}" if number == 1 else f"{number} {thing}s"


def asked_for(policy: Policy) -> str:
    """For which caller the base was audited, and the limits that aren't the widest."""
    words = [f"For a caller in {' '.join(['groups', *map(str, policy.groups)]) if policy.groups else 'no groups'}"]
    if policy.ceiling != 9_999:
        words.append(f"at most {policy.ceiling}p a frame")
    if policy.keyings != 65_535:
        words.append(f"at most {counted(policy.keyings, 'key')} back")
    return ", ".join(words)


def verdict(base: Base, policy: Policy) -> Verdict:
    survey = Survey(base, policy)
    faults = survey.faults()
    words = counted(len(faults), "fault") if faults else "CERTIFIED"
    return Verdict(faults if survey.unopened else [], words, asked_for(policy))
