"""Makes a case that fails smaller before it is printed: frames, rows, keys, routes and lines are left out as long as it
fails.

It is delta debugging: of a list of parts halves are left out, then quarters, down to single parts. The same case
becomes the same small one. All cases of a script share a number of tries and a time; once they are over, a case is
printed as small as it is then.
"""

import re
import time
import tomllib
from collections.abc import Callable, Sequence
from dataclasses import dataclass, replace
from random import Random
from typing import TypeVar

from harness.results import Test
from harness.writing import FirstPen

Case = TypeVar("Case")
Part = TypeVar("Part")
Fails = Callable[[Case], bool]
# Makes a case smaller that fails by a judgement.
Cut = Callable[[Case, Fails[Case]], Case]


class Over(Exception):
    """The tries or the time are over."""


@dataclass
class Budget:
    """How many smaller cases are tried, and for how long."""

    tries: int = 3_000
    seconds: float = 30.0

    def spend(self, case: Case, fails: Fails[Case]) -> bool:
        """Whether a case fails; what can't be judged doesn't."""
        if self.tries <= 0 or self.seconds <= 0:
            raise Over
        self.tries -= 1
        begun = time.monotonic()
        try:
            return fails(case)
        except Exception:
            return False
        finally:
            self.seconds -= time.monotonic() - begun


OF_SCRIPT = Budget()


def shrunk(case: Case, fails: Fails[Case], *cuts: Cut[Case], budget: Budget = OF_SCRIPT) -> Case:
    """The smallest case found that fails: each cut is made in turn, until none makes it smaller."""
    smallest, before = case, None

    def is_smaller(other: Case) -> bool:
        nonlocal smallest
        has_failed = budget.spend(other, fails)
        smallest = other if has_failed else smallest
        return has_failed

    try:
        while smallest != before:
            before = smallest
            for cut in cuts:
                cut(smallest, is_smaller)
    except Over:
        pass
    return smallest


def of_field(name: str, smallest: Cut[Part]) -> Cut[Case]:
    """Makes a field of a dataclass smaller, unless it is empty."""

    def cut(case: Case, fails: Fails[Case]) -> Case:
        def with_part(part: Part) -> Case:
            return replace(case, **{name: part})

        part = getattr(case, name)
        return with_part(smallest(part, lambda part: fails(with_part(part)))) if part else case

    return cut


def judge(test: Test, name: str, case: Case, fault: Callable[[Case], object], *cuts: Cut[Case]) -> None:
    """Counts whether nothing is at fault in a case; one that fails is made smaller before it is printed."""
    wrong = fault(case)
    if wrong:
        case = shrunk(case, lambda case: bool(fault(case)), *cuts)
        wrong = fault(case) or wrong
    shown = case.decode("utf-8", "backslashreplace") if isinstance(case, bytes) else case
    test.check(not wrong, wrong and f"{name}: {wrong}\nmade smaller: {shown}")


def fewest(parts: Sequence[Part], fails: Fails[list[Part]]) -> list[Part]:
    """As few of the parts, in their order, as still fail."""
    kept = list(parts)
    size = len(kept)
    while size:
        at = 0
        while at < len(kept):
            rest = kept[:at] + kept[at + size :]
            if fails(rest):
                kept = rest
            else:
                at += size
        size //= 2
    return kept


def fewest_characters(text: str, fails: Fails[str]) -> str:
    return "".join(fewest(text, lambda kept: fails("".join(kept))))


def smallest_text(data: bytes, fails: Fails[bytes]) -> bytes:
    """As few frames, then lines, then words and characters, as still fail."""
    for pattern in rb"\[\[frame\]\].*?(?=\[\[frame\]\]|\Z)|.+?(?=\[\[frame\]\]|\Z)", rb".*?\n|.+", rb"\w+|.":
        data = b"".join(fewest(re.findall(pattern, data, re.DOTALL), lambda kept: fails(b"".join(kept))))
    return data


def smallest_value(value: object, fails: Fails[object]) -> object:
    """As few members, elements and characters of a tree as still fail."""
    if isinstance(value, str):
        return fewest_characters(value, fails)
    if isinstance(value, list):
        parts = fewest(value, fails)
        for at in range(len(parts)):
            parts[at] = smallest_value(parts[at], lambda one: fails([*parts[:at], one, *parts[at + 1 :]]))
        return parts
    if isinstance(value, dict):
        members = dict(fewest(list(value.items()), lambda kept: fails(dict(kept))))
        for key in members:
            members[key] = smallest_value(members[key], lambda one: fails({**members, key: one}))
        return members
    return value


def base_text(tree: object) -> bytes:
    """The plain text of a base's tree."""
    assert isinstance(tree, dict)
    return FirstPen(Random(0)).base(tree)


def smallest_base(data: bytes, fails: Fails[bytes]) -> bytes:
    """The smallest text of a base: by its tree if its plain text fails too, or as a text."""
    try:
        tree: object = tomllib.loads(data.decode())
        is_plain = fails(base_text(tree))
    except ValueError:
        is_plain = False
    if is_plain:
        return base_text(smallest_value(tree, lambda tree: fails(base_text(tree))))
    return smallest_text(data, fails)


def smallest_cells(data: bytes, fails: Fails[bytes]) -> bytes:
    """A screen with as few rows, then cells, as still fail; the others are blank."""
    for width in 40, 1:
        starts = range(0, len(data), width)

        def kept(some: list[int]) -> bytes:
            parts = ((data[at : at + width], at in some) for at in starts)
            return b"".join(part if is_kept else b" " * len(part) for part, is_kept in parts)

        data = kept(fewest(starts, lambda some: fails(kept(some))))
    return data
