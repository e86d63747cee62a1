"""Programs run with one of their requests for memory refused: what tests/refuse-memory and tests/refuse-calls share."""

import os
import random
import re
from collections.abc import Iterable, Iterator, Sequence
from concurrent.futures import ThreadPoolExecutor
from dataclasses import dataclass
from pathlib import Path
from subprocess import PIPE

from harness.places import EMULATOR, TOP, preloaded
from harness.running import Done, Word, compiled, run

# What the library writes at the end: the number of requests.
COUNT = re.compile(r"\n(\d+)\n\Z")
# How many requests of a run are refused under an emulator, which takes some 30 times as long.
MOST_EMULATED = 20


def refuser(folder: Path) -> Path:
    """The library that refuses, built in a folder."""
    return compiled(TOP / "tests" / "c" / "refuse.c", folder / "refuse.so", "-shared", "-fPIC")


def chosen(requests: int, most: int = 0) -> Sequence[int]:
    """The requests to refuse, by their numbers: each, or at most this many."""
    numbers = range(1, requests + 1)
    most = MOST_EMULATED if EMULATOR else most
    return sorted(random.Random(requests).sample(numbers, most)) if most and requests > most else numbers


@dataclass
class Run:
    """A command, run in a folder with the library that refuses; `device` takes its standard output in the place of a
    pipe.
    """

    library: Path
    command: list[Word]
    folder: Path = TOP
    device: str = ""
    only_call: bool = False

    def answer(self, refused_at: int) -> tuple[Done, int]:
        """The answer if request `refused_at` is refused (0: none), and the number of requests, 0 if the run doesn't say
        it.
        """
        env = os.environ | preloaded(self.library) | {"REFUSE_AT": str(refused_at), "REFUSE_COUNT": "1"}
        if self.only_call:
            env["REFUSE_CALL"] = "1"
        with open(self.device or os.devnull, "wb") as device:
            done = run(self.command, stdout=device if self.device else PIPE, env=env, cwd=self.folder)
        count = COUNT.search(done.stderr)
        errors = done.stderr[: count.start()] if count else done.stderr
        return done._replace(stderr=errors.strip()), int(count[1]) if count else 0

    def answers(self, numbers: Iterable[int]) -> Iterator[tuple[int, Done]]:
        """Each of these requests, with the answer where it is refused. What writes a file runs alone: another run would
        put a new file in its place between two looks at it.
        """
        with ThreadPoolExecutor(1 if "--out" in self.command else os.cpu_count()) as pool:
            yield from pool.map(lambda number: (number, self.answer(number)[0]), numbers)
