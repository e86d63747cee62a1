"""The results of a test: how many passed, failed and were skipped, and what is printed of them."""

from __future__ import annotations

import difflib
import os
import random
import re
import shutil
import traceback
from collections.abc import Callable, Iterable, Iterator
from concurrent.futures import ThreadPoolExecutor
from contextlib import contextmanager
from dataclasses import dataclass
from itertools import zip_longest
from os.path import commonprefix
from pathlib import Path
from pprint import pformat
from tempfile import TemporaryDirectory
from typing import Any, TypeVar

from harness.running import Done

Item = TypeVar("Item")

# At most this many lines of a difference are shown, each of at most this many characters.
LINES, WIDTH = 20, 300
# A longer value is one line: to lay it out would take long.
LONG = 20_000


@dataclass(frozen=True)
class Counts:
    """How many results there are of each kind: the protocol of the scripts is that their last line says so."""

    passed: int = 0
    failed: int = 0
    skipped: int = 0

    def __str__(self) -> str:
        return f"{self.passed} passed, {self.failed} failed" + (f", {self.skipped} skipped" if self.skipped else "")

    def __add__(self, other: Counts) -> Counts:
        return Counts(self.passed + other.passed, self.failed + other.failed, self.skipped + other.skipped)

    @staticmethod
    def of(printed: str) -> Counts | None:
        """Those that the last line of what a script printed says."""
        last = printed.removesuffix("\n").rpartition("\n")[2]
        found = re.fullmatch(r"(\d+) passed, (\d+) failed(?:, (\d+) skipped)?", last)
        return Counts(*(int(count or 0) for count in found.groups())) if found else None


def lines_of(value: object) -> list[str]:
    """A value as lines: each of a text, those of each part of a tuple, and others as Python writes them."""
    if isinstance(value, bytes):
        value = value.decode("utf-8", "backslashreplace")
    if isinstance(value, str):
        return value.splitlines()
    if isinstance(value, tuple):
        return [line for part in value for line in lines_of(part)]
    return pformat(value, width=WIDTH).splitlines() if len(repr(value)) < LONG else [repr(value)]


def difference(found: object, wanted: object) -> str:
    """How two values differ: on one line if they are short, or the lines around the first that differs."""
    if len(short := f"wanted {wanted!r}, found {found!r}") <= WIDTH:
        return short
    old, new = lines_of(wanted), lines_of(found)
    first = next((place for place, (one, other) in enumerate(zip_longest(old, new)) if one != other), None)
    if first is None:
        return f"wanted {str(wanted)!r:.{WIDTH}}, found {str(found)!r:.{WIDTH}}"
    begin, column = max(first - 3, 0), max(
        len(commonprefix([*old[first : first + 1], *new[first : first + 1]])) - WIDTH // 2, 0
    )
    ends = [[line[column : column + WIDTH] for line in lines[begin : begin + LINES]] for lines in (old, new)]
    place = f"from line {begin + 1}" + (f", column {column + 1}" if column else "")
    return "\n".join([place, *difflib.unified_diff(ends[0], ends[1], "wanted", "found", lineterm="")])


class Test:
    """The results of a case. What isn't right is printed, with the case's name."""

    __test__ = False

    def __init__(self, name: str = "", options: Any = None, show: Callable[[str], None] | None = None) -> None:
        self.name, self.options, self.counts = name, options, Counts()
        self._show = show or (lambda text: print(text, flush=True))
        self._folder: TemporaryDirectory[str] | None = None

    # Results

    def check(self, is_right: object, what: object = "") -> bool:
        """Counts a result; `what` says what isn't right."""
        self.counts += Counts(1) if is_right else Counts(0, 1)
        if not is_right:
            self.say(f"{self.name}{': ' if self.name else ''}{what}")
        return bool(is_right)

    def equal(self, found: object, wanted: object, what: str = "") -> bool:
        """Counts whether a value is the wanted one; `what` says of what it is."""
        is_right = found == wanted
        return self.check(is_right, "" if is_right else f"{what}{': ' if what else ''}{difference(found, wanted)}")

    def faults(self, every: Iterable[str | None]) -> None:
        """Counts a result for each: what is wrong, or None."""
        for fault in every:
            self.check(not fault, fault)

    def skip(self, why: str, count: int = 1) -> None:
        """Counts what can't be tried here."""
        self.counts += Counts(0, 0, count)
        self.say(f"skipped: {why}")

    def has(self, *commands: str) -> bool:
        """Whether these commands are here; if one isn't, a result is skipped by its name."""
        lacking = [command for command in commands if not shutil.which(command)]
        if lacking:
            self.skip(f"{self.name}: {', '.join(lacking)}: not here")
        return not lacking

    def say(self, text: object) -> None:
        """Prints what is no result."""
        self._show(str(text))

    # Cases in cases

    def case(self, name: str, judge: Callable[[Test], None], whole: bool = False) -> Counts:
        """Judges a case with results of its own and adds them; of a whole one the one result that there are some and
        all are right.
        """
        inner = Test(name, self.options, self._show)
        with inner.of_case():
            judge(inner)
        counts = inner.counts
        if whole:
            none = counts if counts.skipped else Counts(0, 1)
            counts = Counts(0, 1) if counts.failed else Counts(1) if counts.passed else none
        self.counts += counts
        return counts

    def each(
        self,
        items: Iterable[Item],
        judge: Callable[[Test, Item], None],
        at_once: int | None = None,
        whole: bool = False,
    ) -> None:
        """Judges each item by itself, as many at once as there are processors; what is printed of each is in order."""

        def judged(item: Item) -> tuple[Counts, list[str]]:
            shown: list[str] = []
            inner = Test(self.name, self.options, shown.append)
            return inner.case(self.name, lambda test: judge(test, item), whole), shown

        with ThreadPoolExecutor(at_once or os.cpu_count()) as pool:
            for counts, shown in pool.map(judged, items):
                self.counts += counts
                for text in shown:
                    self.say(text)

    def adopt(self, name: str, done: Done) -> None:
        """Adds the results of a script that ended so: one that counts nothing, or says that it failed and counts no
        failure, has failed.
        """
        self.say(done.stdout.removesuffix("\n"))
        counts = Counts.of(done.stdout)
        self.counts += counts or Counts()
        if counts is None or done.status and not counts.failed:
            self.check(False, f"{name} ends with status {done.status} and counts {counts or 'nothing'}: {done.stderr}")

    @contextmanager
    def of_case(self) -> Iterator[None]:
        """Counts what a case raises as a failure, and removes its folder at its end."""
        try:
            yield
        except Exception:
            self.check(False, traceback.format_exc(limit=-4))
        finally:
            if self._folder:
                self._folder.cleanup()

    # What a case works with

    @property
    def folder(self) -> Path:
        """A folder of the case's own."""
        if not self._folder:
            self._folder = TemporaryDirectory(prefix="pageaudit-")
        return Path(self._folder.name)

    @property
    def count(self) -> int:
        """How many random things are tried: what --count says."""
        return int(self.options.count)

    @property
    def seed(self) -> int:
        """What --seed says."""
        return int(self.options.seed)

    def random(self, *words: object) -> random.Random:
        """Random choices, by the seed and some words."""
        return random.Random(" ".join(map(str, [*words, self.seed])))
