"""Runs of the program on random texts: their words and files, what they have to answer, and how they become smaller."""

import time
from argparse import ArgumentParser
from collections.abc import Callable, Iterator
from dataclasses import dataclass, replace
from functools import cached_property
from pathlib import Path
from typing import Literal

from harness import shrinking
from harness.results import Test, difference
from harness.running import Done, program
from harness.shrinking import Cut, Fails, fewest_characters, of_field, smallest_base, smallest_text
from second_reading.audit import audit
from second_reading.base import Answer, Asked, with_advice
from second_reading.certificate import check
from second_reading.change import Texts, change
from second_reading.listing import Form, listing
from second_reading.map import View, draw
from second_reading.screens import show
from second_reading.session import walk

Command = Literal["walk", "list", "audit", "check", "map", "change", "show"]


@dataclass(frozen=True)
class Run:
    """A command on a base, and what else it takes: a certificate, the next edition, keys, a frame, a form, a view."""

    command: Command
    base: bytes
    asked: Asked
    certificate: bytes = b""
    new_base: bytes = b""
    new_certificate: bytes = b""
    keys: str | None = None
    frame: str | None = None
    form: Form = "line"
    view: View = View()

    @cached_property
    def answer(self) -> Answer:
        """What it has to answer, but for the name of a file."""
        return ANSWERS[self.command](self)

    def wanted(self, folder: Path) -> Answer:
        """What it has to answer with its files in a folder."""
        has_advice = self.command in ("list", "map", "show")
        return with_advice(self.answer, folder / "base.toml") if has_advice else self.answer

    def words(self, folder: Path) -> list[str]:
        """The words of the program, whose files are in a folder."""
        count = {"check": 2, "change": 4}.get(self.command, 1)
        files = [folder / name for name in ("base.toml", "base.cert", "new.toml", "new.cert")[:count]]
        for file, text in zip(files, self.texts):
            file.write_bytes(text)
        return [self.command, *map(str, files), *self.options]

    @property
    def texts(self) -> list[bytes]:
        return [self.base, self.certificate, self.new_base, self.new_certificate]

    @property
    def options(self) -> list[str]:
        match self.command:
            case "walk":
                words = [self.keys or ""]
            case "list":
                words = ["--format", "json"] if self.form == "json" else []
            case "map":
                words = self.view.words
            case "show":
                keys = [] if self.keys is None else ["--keys", self.keys]
                words = [*([] if self.frame is None else [self.frame]), *keys, "--as", "cells"]
            case _:
                words = self.asked.limits
        return [*words, *self.asked.caller]

    def found(self, folder: Path) -> Done:
        """What the program answers with its files in a folder."""
        return program(*self.words(folder))

    def __str__(self) -> str:
        texts = [text.decode("utf-8", "backslashreplace") for text in self.texts]
        return "\n".join([f"{self.command} {self.options}", *filter(None, texts)])


ANSWERS: dict[Command, Callable[[Run], Answer]] = {
    "walk": lambda run: walk(run.base, run.keys or "", run.asked),
    "list": lambda run: listing(run.base, run.asked, run.form),
    "audit": lambda run: audit(run.base, run.asked),
    "check": lambda run: check(run.base, run.certificate, run.asked),
    "map": lambda run: draw(run.base, run.asked, run.view),
    "change": lambda run: change(Texts(*run.texts[:2]), Texts(*run.texts[2:]), run.asked),
    "show": lambda run: show(run.base, run.frame, run.keys, run.asked),
}


def cut_asked(run: Run, fails: Fails[Run]) -> Run:
    """Without options that aren't needed."""
    usual = Asked()
    fewer = usual, replace(run.asked, option=None), replace(usual, option=run.asked.option)
    every = (replace(run, asked=asked) for asked in fewer)
    return next((less for less in every if less != run and fails(less)), run)


CUTS: list[Cut[Run]] = [
    cut_asked,
    of_field("base", smallest_base),
    of_field("new_base", smallest_base),
    of_field("certificate", smallest_text),
    of_field("new_certificate", smallest_text),
    of_field("keys", fewest_characters),
]


def with_seconds(usual: int) -> Callable[[ArgumentParser], object]:
    """The option --seconds, after which no further random thing is tried."""
    words = "how long random things are tried (%(default)s)"
    return lambda parser: parser.add_argument("--seconds", type=float, default=usual, help=words)


def numbers(test: Test) -> Iterator[int]:
    """The numbers of the random things that are tried in time."""
    begun = time.monotonic()
    for number in range(test.count):
        if time.monotonic() - begun > test.options.seconds:
            test.say(f"the time was over after {number}")
            return
        yield number


def fault(run: Run, folder: Path) -> str | None:
    """What the program answers in a folder other than it has to, or None."""
    found, wanted = run.found(folder), run.wanted(folder)
    return None if found == wanted else difference(found, wanted)


def judge(test: Test, run: Run, name: str) -> None:
    """Counts whether the program answers what it has to."""
    shrinking.judge(test, name, run, lambda run: fault(run, test.folder), *CUTS)
