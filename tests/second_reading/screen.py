"""The terminal's byte table without its cells: a state is a position and whether an escape is pending.

What a body does is tried from each of the 1,920 states in which the terminal may be.
"""

from collections.abc import Collection
from functools import cache
from typing import NamedTuple

CELLS = 960
CLEAR = b"\x0c\x1e\x0a"
DOUBLE_HEIGHT = 0x8D
MOVES = {0x08: -1, 0x09: 1, 0x0A: 40, 0x0B: -40}


class State(NamedTuple):
    at: int
    pending: bool


class Written(NamedTuple):
    at: int
    code: int


class Step(NamedTuple):
    """The state after a byte, and what it writes."""

    state: State
    written: tuple[Written, ...] = ()


class Touch(NamedTuple):
    """The first byte that writes into a service row, and the least start from which it does."""

    offset: int
    start: int


class Painted(NamedTuple):
    """The cursor after a clean body, or the first touch of another."""

    cursor: str
    touch: Touch | None = None


STATES = [State(at, pending) for at in range(CELLS) for pending in (False, True)]
BLANKS = tuple(Written(at, 0x20) for at in range(CELLS))


def is_service(at: int, code: int) -> bool:
    """Whether a code counts as written in row 0 or 23: in row 22 double height does, which shows in the row beneath."""
    return at < 40 or at >= 920 or (880 <= at and code == DOUBLE_HEIGHT)


def code_of(byte: int, pending: bool) -> int | None:
    """The code that a byte from 20 on writes, or None."""
    if byte >= 0xA0:
        return byte - 0x80
    if byte >= 0x80 or not pending:
        return byte
    return byte + 0x40 if 0x40 <= byte <= 0x5F else None


@cache
def step(state: State, byte: int) -> Step:
    at, pending = state
    if byte == 0x1B:
        return Step(State(at, True))
    if byte in MOVES:
        return Step(State((at + MOVES[byte]) % CELLS, False))
    if byte == 0x0C:
        return Step(State(0, False), BLANKS)
    if byte == 0x0D:
        return Step(State(at - at % 40, False))
    if byte == 0x1E:
        return Step(State(0, False))
    code = None if byte < 0x20 else code_of(byte, pending)
    if code is None:
        return Step(State(at, False))
    return Step(State((at + 1) % CELLS, False), (Written(at, code),))


def run(state: State, data: bytes) -> State:
    for byte in data:
        state = step(state, byte).state
    return state


def touches(state: State, byte: int) -> bool:
    return any(is_service(at, code) for at, code in step(state, byte).written)


def cursor_text(states: Collection[State]) -> str:
    """The one cursor that represents exactly these states."""
    positions = sorted({at for at, _ in states})
    pends = {pending for _, pending in states}
    assert len(states) == len(positions) * len(pends)
    end = "?" if len(pends) == 2 else "+" if True in pends else ""
    if len(positions) == 1:
        return f"s{positions[0]}{end}"
    if len(positions) == CELLS:
        return f"any{end}"
    assert positions == list(range(positions[0], CELLS, 40))
    return f"c{positions[0]}{end}"


def lead(keep: bool) -> bytes:
    """What is sent before a frame's body."""
    return b"" if keep else CLEAR


@cache
def after(keep: bool) -> frozenset[State]:
    """The states after a lead, from each state."""
    return frozenset(run(state, lead(keep)) for state in STATES)


@cache
def paint(keep: bool, body: bytes) -> Painted:
    states: Collection[State] = after(keep)
    for offset, byte in enumerate(body):
        if any(touches(state, byte) for state in states):
            before = lead(keep) + body[:offset]
            start = next(state for state in STATES if touches(run(state, before), byte))
            return Painted("", Touch(offset, start.at))
        states = {step(state, byte).state for state in states}
    return Painted(cursor_text(states))
