"""The graph of a base, as `map` draws it for a caller of some groups."""

import re
from collections.abc import Iterator
from typing import Literal, NamedTuple

from .audit import Survey
from .base import Answer, Asked, Base, Found, Frame, FrameId, Groups, Key, Refused, answers, lines_text
from .certificate import KEYS
from .faults import base_of
from .looks import CHARACTERS

ESCAPE = re.compile(rb"\x1b.?", re.DOTALL)
RUN = re.compile(rb"[\x20-\x7e]{3,}")


class View(NamedTuple):
    """Which frames a map shows: near a page by at most `most` keys, from it (`page`) or to it; without a view all."""

    side: Literal["page", "to"] | None = None
    page: int = 0
    most: int | None = None

    @property
    def words(self) -> list[str]:
        side = [f"--{self.side}", str(self.page)] if self.side else []
        return [*side, *(["--within", str(self.most)] if self.most is not None else [])]


def title(body: bytes) -> str:
    """The first run of three or more characters with a letter, without escapes."""
    runs = (run for run in RUN.findall(ESCAPE.sub(b"", body)) if re.search(rb"[A-Za-z]", run))
    return next(runs, b"").decode("ascii").strip(" ")[:24]


def escaped(text: str) -> str:
    """What callers see of these codes, as a label of DOT has it."""
    seen = "".join(CHARACTERS.get(ord(code), code) for code in text)
    return seen.replace("&", "&amp;").replace('"', '\\"')


def leads(base: Base, groups: Groups, frame: Frame) -> list[FrameId]:
    """The ids of the frames that are found from a frame, in the order of the keys."""
    return [to for key in KEYS if (to := frame.sought(key)) and base.seek(to, groups) == Found.FOUND]


def near(base: Base, groups: Groups, start: FrameId, most: int | None, back: bool) -> set[FrameId]:
    """The frames that at most `most` keys lead to from a frame, or if `back` from which they lead there."""
    ways = {id: leads(base, groups, frame) for id, frame in base.frames.items()}
    if back:
        ways = {id: [other for other, ends in ways.items() if id in ends] for id in ways}
    wave, shown, keys = {start}, {start}, 0
    while wave and (most is None or keys < most):
        wave = {to for id in wave for to in ways[id]} - shown
        shown |= wave
        keys += 1
    return shown


def part_of(base: Base, groups: Groups, view: View) -> set[FrameId]:
    """The frames of a view; Refused if the base lacks the frame `a` of its page."""
    if view.side is None:
        return set(base.frames)
    start = FrameId(view.page, "a")
    if start not in base.frames:
        raise Refused(f"error: the base has no frame {start}", 2)
    return near(base, groups, start, view.most, view.side == "to")


class Drawing:
    def __init__(self, survey: Survey, shown: set[FrameId], is_whole: bool) -> None:
        self.survey, self.base, self.shown, self.is_whole = survey, survey.base, shown, is_whole

    def node(self, frame: Frame) -> str:
        words = [str(frame.id), escaped(title(frame.body)), f"PRICE {frame.price}"]
        label = r"\n".join(word for word in words if word)
        marks = [f'label="{label}"']
        if frame.id == self.base.entry_id:
            marks.append("peripheries=2")
        if not frame.is_open(self.survey.groups):
            marks.append("color=red")
        if frame.id not in self.survey.scripts:
            marks.append("style=dashed")
        return f'    "{frame.id}" [{" ".join(marks)}]'

    def name(self, id: FrameId) -> str:
        lacks = id not in self.base.frames
        return str(id.page) if lacks and id.page in self.base.outside else str(id)

    def edges(self, frame: Frame) -> dict[FrameId, list[Key]]:
        """What a frame's keys seek, as far as the map has a node for it, with the keys."""
        ends: dict[FrameId, list[Key]] = {}
        for key in KEYS:
            if to := frame.sought(key):
                ends.setdefault(to, []).append(key)
        return {to: keys for to, keys in ends.items() if to in self.shown or to not in self.base.frames}

    def lines(self) -> Iterator[str]:
        frames = [self.base.frames[id] for id in sorted(self.shown)]
        yield from ("digraph {", "  rankdir=LR", "  newrank=true", "  node [shape=box]")
        for page in sorted({frame.id.page for frame in frames}):
            yield from (f"  subgraph cluster_{page} {{", f"    label={page}")
            yield from (self.node(frame) for frame in frames if frame.id.page == page)
            yield "  }"
        entry = self.base.entry_id
        ends = [entry] if self.is_whole and entry not in self.base.frames else []
        ends += [to for frame in frames for to in self.edges(frame) if to not in self.base.frames]
        for id in dict.fromkeys(ends):
            mark = "shape=ellipse" if id.page in self.base.outside else "color=red"
            yield f'  "{self.name(id)}" [{"peripheries=2 color=red" if id == entry else mark}]'
        for frame in frames:
            for to, keys in self.edges(frame).items():
                yield f'  "{frame.id}" -> "{self.name(to)}" [label="{" ".join(keys)}"]'
        yield "}"


@answers
def draw(text: bytes, asked: Asked, view: View = View()) -> Answer:
    """What `map` answers."""
    policy, base = asked.policy, base_of(text)
    drawing = Drawing(Survey(base, policy), part_of(base, policy.groups, view), view.side is None)
    return Answer(0, lines_text(drawing.lines()))
