"""Letters in the paths of an SVG picture."""

import re
from collections.abc import Iterator
from functools import cache

from harness.letters import Bits, Point, filled

WIDE, HIGH = 12, 20
STEP = re.compile(r"([mhvz])(-?\d*)(?: (-?\d+))?")


@cache
def loops(commands: str) -> list[list[Point]]:
    """The corners of the loops of relative commands, from 0, 0 on."""
    found, x, y, end = list[list[Point]](), 0, 0, 0
    for step in STEP.finditer(commands):
        if step.start() != end:
            raise ValueError(f"{commands} at {end}")
        command, first, second, end = step[1], step[2], step[3], step.end()
        if command == "z":
            x, y = found[-1][0]
            continue
        if command == "m":
            x, y = x + int(first), y + int(second)
            found.append([])
        elif command == "h":
            x += int(first)
        else:
            y += int(first)
        found[-1].append((x, y))
        if not (0 <= x <= WIDE and 0 <= y <= HIGH):
            raise ValueError(f"{commands} leaves its cell")
    if end != len(commands) or any(loop[0][0] != loop[-1][0] and loop[0][1] != loop[-1][1] for loop in found):
        raise ValueError(f"{commands} at {end}")
    return found


@cache
def units(commands: str) -> tuple[tuple[bool, ...], ...]:
    """The units of a cell that are inside."""
    rows: Bits = filled(loops(commands))
    return tuple(map(tuple, rows))


def cells_of(path: str) -> Iterator[tuple[tuple[int, int], tuple[tuple[bool, ...], ...]]]:
    """The row and column of each cell in which a path draws, and its units."""
    for part in path.split("M")[1:]:
        start = re.match(r"(\d+) (\d+)", part)
        if not start or int(start[1]) % WIDE or int(start[2]) % HIGH:
            raise ValueError(f"M{part} begins at no cell")
        drawn = units(part[start.end() :])
        if any(map(any, drawn)):
            yield (int(start[2]) // HIGH, int(start[1]) // WIDE), drawn
