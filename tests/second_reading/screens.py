"""Which screen is shown, as its 960 codes: frames sent to a new terminal, and the rows that the centre paints on it."""

from collections.abc import Iterable

from .audit import Survey
from .base import (
    MOST_PAGE,
    Answer,
    Asked,
    Base,
    Frame,
    FrameId,
    Groups,
    Key,
    Policy,
    Refused,
    answers,
    id_in,
    is_numeral,
    keys_in,
)
from .faults import base_of
from .screen import CELLS, State, lead, step
from .session import Session

BLANK = 0x20


def cells_after_bytes(data: bytes) -> bytes:
    """The cells of a new terminal after some bytes."""
    state, cells = State(0, False), [BLANK] * CELLS
    for byte in data:
        state, written = step(state, byte)
        for at, code in written:
            cells[at] = code
    return bytes(cells)


def cells_after(frames: Iterable[Frame]) -> bytes:
    """The cells of a new terminal after the lead and body of each frame."""
    return cells_after_bytes(b"".join(lead(frame.keep) + frame.body for frame in frames))


def codes(base: Base, ids: list[FrameId]) -> bytes:
    """The codes with the centre's rows: the last frame's id ends at column 34, its price at column 39."""
    cells = cells_after([base.frames[id] for id in ids])
    price = f"{base.frames[ids[-1]].price}p"
    top = f"{str(ids[-1]):>35}{price:>5}"
    return top.encode() + cells[40:920] + bytes([BLANK] * 40)


def sent(base: Base, groups: Groups, words: list[Key]) -> list[FrameId]:
    """The frames that are sent to a caller who presses keys; Refused with the page for which the caller leaves."""
    session = Session(base, groups)
    ids = [base.entry_id]
    for word in words:
        reply = session.key(word)
        if reply.startswith("GONE"):
            raise Refused(reply, 1)
        if reply.startswith(("SHOWN", "AGAIN")) and session.at:
            ids.append(session.at)
    return ids


def steps_between(a: str, b: str) -> int:
    """How many characters are put in, taken out, changed or swapped with the next to make one text the other."""
    rows = [list(range(len(b) + 1))]
    for i, one in enumerate(a, 1):
        row = [i]
        for j, other in enumerate(b, 1):
            least = min(rows[i - 1][j] + 1, row[j - 1] + 1, rows[i - 1][j - 1] + (one != other))
            if i > 1 and j > 1 and one == b[j - 2] and a[i - 2] == other:
                least = min(least, rows[i - 2][j - 2] + 1)
            row.append(least)
        rows.append(row)
    return rows[-1][-1]


def no_frame(base: Base, id: FrameId) -> Refused:
    """The line about a frame that the base lacks, with the first of the nearest if one is near."""
    every = [(steps_between(str(id), str(other)), other) for other in sorted(base.frames)]
    near = [(steps, other) for steps, other in every if steps < min(3, len(str(other)))]
    meant = f"; did you mean {min(near)[1]}?" if near else ""
    return Refused(f"error: the base has no frame {id}{meant}", 2)


def named(word: str) -> FrameId | None:
    """The frame that a word names: an id, or a page for its frame a."""
    if is_numeral(word) and int(word) <= MOST_PAGE:
        return FrameId(int(word), "a")
    return id_in(word)


def frames_after_keys(base: Base, groups: Groups, words: list[Key]) -> list[FrameId]:
    """The frames that are sent to a caller who presses keys; Refused if no session is opened or the caller leaves."""
    if line := base.unopened(groups):
        raise Refused(line.strip(), 1)
    return sent(base, groups, words)


def frames_of(base: Base, groups: Groups, id: FrameId | None) -> list[FrameId]:
    """The frames that are sent before a frame is shown, without an id the entry frame; Refused if there is none."""
    if id is None:
        if base.entry_id not in base.frames:
            raise Refused(f"ENTRYMISSING {base.entry_id}", 1)
        return [base.entry_id]
    if id not in base.frames:
        raise no_frame(base, id)
    script = Survey(base, Policy(groups=groups)).scripts.get(id)
    return [id] if script is None else sent(base, groups, keys_in(script))


@answers
def show(text: bytes, frame: str | None, keys: str | None, asked: Asked) -> Answer:
    """What `show --as cells` answers: of the frame that a word names, or after keys."""
    groups = asked.groups
    id = None if frame is None else named(frame)
    if frame is not None and id is None:
        raise Refused(f"error: '{frame}' is neither a frame (478a) nor a page (478)", 2)
    words = None if keys is None else keys_in(keys)
    base = base_of(text)
    ids = frames_of(base, groups, id) if words is None else frames_after_keys(base, groups, words)
    return Answer(0, codes(base, ids).decode("utf-8", "surrogateescape"))
