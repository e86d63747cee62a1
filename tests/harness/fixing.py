"""The fixes of findings, each made alone: what `lint` finds then has to be what it found before, but for that one."""

import json
import re
from collections import Counter
from pathlib import Path
from typing import NamedTuple

from harness.results import Test
from harness.running import program

BOM = "\ufeff"
READING = re.compile(r"[BIX]\d+$")
NAME = re.compile(r"this frame|frame \d+[a-z]")


class Fix(NamedTuple):
    """A span of a text, by lines and columns from 1, and what takes its place."""

    line: int
    column: int
    end_line: int
    end_column: int
    text: str

    def applied(self, text: str) -> str:
        """The text with it made. A byte order mark has no column."""
        mark = BOM if text.startswith(BOM) else ""
        lines = text.removeprefix(BOM).split("\n")
        begin = sum(len(line) + 1 for line in lines[: self.line - 1]) + self.column - 1
        end = sum(len(line) + 1 for line in lines[: self.end_line - 1]) + self.end_column - 1
        rest = text.removeprefix(BOM)
        return mark + rest[:begin] + self.text + rest[end:]


class Said(NamedTuple):
    """A finding, without its place, and its fix."""

    level: str
    code: str
    message: str
    fix: Fix | None = None

    @property
    def is_of_reading(self) -> bool:
        """Whether the text at fault is no base, so that no frame of it is judged."""
        return READING.match(self.code) is not None

    @property
    def words(self) -> tuple[str, str, str]:
        """Without the name of its frame, which a frame whose id is at fault lacks."""
        return self.level, self.code, NAME.sub("frame", self.message)


def found(folder: Path, text: str, *caller: str) -> list[Said]:
    """What `lint` finds in a text."""
    done = program("lint", "-", "--format", "json", *caller, cwd=folder, input=text)
    read = [json.loads(line) for line in done.stdout.splitlines()]
    fixes = [None if one["fix"] is None else Fix(**one["fix"]) for one in read]
    return [Said(one["level"], one["code"], one["message"], fix) for one, fix in zip(read, fixes)]


def _come(said: Said, before: list[Said], again: list[Said]) -> Counter[tuple[str, str, str]]:
    """The findings that the fix of one brings. Of a text that isn't TOML others may come, since reading goes on: the
    first fault has another place then. Of one that was no base what is judged of its frames comes."""
    if said.code == "X2":
        return Counter(one.words for one in again if one == said)
    was_base = not any(one.is_of_reading for one in before)
    rest = Counter(one.words for one in before) - Counter([said.words])
    return Counter(one.words for one in again if was_base or one.is_of_reading) - rest


def fixed_alone(test: Test, name: str, text: str, *caller: str) -> list[str]:
    """The texts that each fix alone makes of a text. In each the finding is gone and no other has come."""
    before, texts = found(test.folder, text, *caller), list[str]()
    for said in before:
        if said.fix is None:
            continue
        texts.append(said.fix.applied(text))
        come = _come(said, before, found(test.folder, texts[-1], *caller))
        test.check(not come, f"{name}: {said} is made alone, and then there is {come}")
    return texts
