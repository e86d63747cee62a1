"""The frames that a caller can reach, and every fault or the certificate."""

from collections.abc import Iterable, Iterator
from functools import cached_property

from .base import Answer, Asked, Base, Found, Frame, FrameId, Policy, answers, lines_text
from .certificate import KEYS, Certificate, Row
from .faults import base_of
from .screen import paint

Scripts = dict[FrameId, str]
Ranks = dict[FrameId, int]


def discover(base: Base, groups: tuple[int, ...]) -> Scripts:
    """Each frame that a caller of these groups can reach, in the order of discovery, with the keys that lead there."""
    scripts = {base.entry_id: ""}
    queue = [base.entry_id]
    for id in queue:
        for key in KEYS:
            to = base.frames[id].sought(key)
            if to and base.seek(to, groups) == Found.FOUND and to not in scripts:
                scripts[to] = scripts[id] + key
                queue.append(to)
    return scripts


def ranks_of(base: Base, ids: Iterable[FrameId]) -> Ranks:
    """The least number of keys from each frame back to the entry page, by waves; none if there is no way."""
    ranks = {base.entry_id: 0}
    frames = [base.frames[id] for id in ids]
    while True:
        last = max(ranks.values())
        ends = {frame.id: [frame.sought(key) for key in KEYS] for frame in frames if frame.id not in ranks}
        wave = [id for id, every in ends.items() if any(to and ranks.get(to) == last for to in every)]
        if not wave:
            return ranks
        ranks.update((id, last + 1) for id in wave)


class Survey:
    """What a caller of some groups meets in a base; nothing is reached if the entry page can't be opened."""

    def __init__(self, base: Base, policy: Policy) -> None:
        self.base, self.policy, self.groups = base, policy, policy.groups
        self.unopened = base.unopened(policy.groups)

    @cached_property
    def scripts(self) -> Scripts:
        return {} if self.unopened else discover(self.base, self.groups)

    @cached_property
    def ranks(self) -> Ranks:
        return ranks_of(self.base, self.scripts) if self.scripts else {}

    @property
    def unreached(self) -> list[FrameId]:
        return sorted(self.base.frames.keys() - self.scripts.keys())

    def key_faults(self, frame: Frame, script: str) -> Iterator[str]:
        for key in KEYS:
            to = frame.sought(key)
            found = self.base.seek(to, self.groups) if to else Found.FOUND
            if to is None or found == Found.FOUND or (found == Found.MISSING and to.page in self.base.outside):
                continue
            yield f"{found.value} {to} AT {frame.id} KEY {key} SCRIPT {script}{key}"

    def frame_faults(self, id: FrameId) -> Iterator[str]:
        """The faults of a frame that is reached."""
        frame, script, rank = self.base.frames[id], self.scripts[id], self.ranks.get(id)
        keys = script or "-"
        if frame.price > self.policy.ceiling:
            yield f"PRICE {id} {frame.price} SCRIPT {keys}"
        if touch := paint(frame.keep, frame.body).touch:
            yield f"TOUCHES {id} BYTE {touch.offset} START {touch.start} SCRIPT {keys}"
        yield from self.key_faults(frame, script)
        if rank is None or rank > self.policy.keyings:
            yield f"NORETURN {id} SCRIPT {keys}"

    def faults(self) -> list[str]:
        if self.unopened:
            return [self.unopened.strip()]
        return [fault for id in self.scripts for fault in self.frame_faults(id)]

    def certificate(self) -> Certificate:
        """The certificate of a base without a fault."""
        frames = [self.base.frames[id] for id in sorted(self.scripts)]
        rows = [Row(frame.id, self.ranks[frame.id], paint(frame.keep, frame.body).cursor) for frame in frames]
        ceiling, keyings = max(frame.price for frame in frames), max(row.rank for row in rows)
        return Certificate(self.base.entry, ceiling, keyings, self.groups, rows)


@answers
def audit(text: bytes, asked: Asked) -> Answer:
    """What `audit` answers."""
    policy = asked.policy
    survey = Survey(base_of(text), policy)
    if faults := survey.faults():
        return Answer(1, lines_text([f"FAULTS {len(faults)}", *faults]))
    return Answer(0, lines_text(survey.certificate().lines()))
