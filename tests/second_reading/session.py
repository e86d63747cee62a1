"""A caller's session, by the table of keys."""

from .base import Answer, Asked, Base, Found, FrameId, Groups, Key, answers, keys_in, lines_text
from .faults import base_of


class Session:
    """A caller inside: `base` is the edition of the moment, which may be exchanged between two keys."""

    def __init__(self, base: Base, groups: Groups) -> None:
        self.base = base
        self.groups = groups
        self.at: FrameId | None = base.entry_id
        self.remembered: list[FrameId] = []

    def shown(self, id: FrameId) -> str:
        return f"SHOWN {id} {self.base.frames[id].price}"

    def refused(self, id: FrameId) -> str | None:
        """The reply if the frame isn't found, or None."""
        found = self.base.seek(id, self.groups)
        return None if found == Found.FOUND else f"{found.value} {id}"

    def forward(self, at: FrameId, id: FrameId) -> str:
        if line := self.refused(id):
            return line
        self.remembered = [at, *self.remembered][:3]
        self.at = id
        return self.shown(id)

    def offered(self, at: FrameId, key: Key) -> str:
        """The reply to a digit or #."""
        frame = self.base.frames.get(at)
        to = frame.sought(key) if frame else None
        if to is None:
            return "NOTOFFERED"
        if key != "#" and to.page in self.base.outside and self.base.seek(to, self.groups) == Found.MISSING:
            self.at = None
            return f"GONE {to.page}"
        return self.forward(at, to)

    def previous(self) -> str:
        if not self.remembered:
            return "NOTOFFERED"
        if line := self.refused(self.remembered[0]):
            return line
        self.at = self.remembered.pop(0)
        return self.shown(self.at)

    def key(self, word: Key) -> str:
        if self.at is None:
            return "NOTOFFERED"
        if word == "*00":
            return f"AGAIN {self.at}"
        if word == "*09":
            return self.refused(self.at) or self.shown(self.at)
        return self.previous() if word == "*#" else self.offered(self.at, word)


@answers
def walk(text: bytes, keys: str, asked: Asked) -> Answer:
    """What `walk` answers."""
    groups, words, base = asked.groups, keys_in(keys), base_of(text)
    if line := base.unopened(groups):
        return Answer(1, line)
    session = Session(base, groups)
    replies = [session.shown(base.entry_id), *(session.key(word) for word in words)]
    return Answer(0, lines_text(replies))
