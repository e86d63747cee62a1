"""What pyte, a terminal in Python, shows after texts.

It may be known to Debian's Python alone, which then runs this file: it reads a list of texts as JSON, and writes for
each the rows of cells of a terminal of the columns and rows that are its words.
"""

import json
import sys
from collections.abc import Iterator, Sequence
from pathlib import Path
from typing import Any, NamedTuple

NAMES = ["black", "red", "green", "brown", "blue", "magenta", "cyan", "white"]


class Cell(NamedTuple):
    """A cell of a terminal; an old pyte knows no flash."""

    character: str
    foreground: int | None
    background: int | None
    flash: bool | None


def by_pyte(texts: Sequence[str], columns: int, rows: int) -> list[list[list[Cell]]] | None:
    """The rows of cells after each text, or None if there is no pyte."""
    from harness import run

    for python in (sys.executable, "/usr/bin/python3"):
        done = run([python, Path(__file__), str(columns), str(rows)], input=json.dumps(texts))
        if done.status == 0:
            return [[[Cell(*cell) for cell in row] for row in screen] for screen in json.loads(done.stdout)]
    return None


def number(name: str) -> int | None:
    return NAMES.index(name) if name in NAMES else None


def cells(pyte: Any, text: str, columns: int, rows: int) -> Iterator[list[Cell]]:
    # a line end in the last row doesn't scroll
    terminal = pyte.Screen(columns, rows + 1)
    pyte.Stream(terminal).feed(text.replace("\n", "\r\n"))
    for row in range(rows):
        line = [terminal.buffer[row][column] for column in range(columns)]
        yield [Cell(cell.data, number(cell.fg), number(cell.bg), getattr(cell, "blink", None)) for cell in line]


if __name__ == "__main__":
    import pyte

    size = int(sys.argv[1]), int(sys.argv[2])
    json.dump([list(cells(pyte, text, *size)) for text in json.load(sys.stdin)], sys.stdout)
