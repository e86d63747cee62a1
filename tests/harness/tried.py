"""When each plain edit was refused last, as tests/data/plain-edits.tried has it: what tests/plain-edits and
tests/contracts share.

A line names an edit, the day, the commit, and the sums of the edit and of the files that it changes. If these have
other sums now, the edit counts as never tried.
"""

import datetime
import hashlib
from collections.abc import Iterable, Iterator
from pathlib import Path
from typing import Any

from harness.edits import Edit, plain_edits
from harness.places import TOP
from harness.running import run

TRIED = TOP / "tests" / "data" / "plain-edits.tried"


def git(*words: str) -> str:
    return run(["git", *words], cwd=TOP).stdout.strip()


def sum_of(paths: Iterable[Path]) -> str:
    return hashlib.sha256(b"".join(path.read_bytes() for path in paths)).hexdigest()[:12]


def sums(edit: Edit) -> list[str]:
    return [sum_of([edit.path]), sum_of(sorted({change.path for change in edit.changes}))]


def record() -> dict[str, list[str]]:
    """For each edit that was refused, as 'crate/edit', the day, the commit and the sums."""
    lines = TRIED.read_text().splitlines() if TRIED.exists() else []
    return {line.split()[0]: line.split()[1:] for line in lines}


def keep(crate: str, refused: Iterable[Edit]) -> None:
    """Lists the edits of a crate that were refused, and no others of it. Of crates/ with changes that aren't committed
    none is added.
    """
    own = {f"{crate}/{edit.name}": edit for edit in refused}
    lines = {name: words for name, words in record().items() if name in own or not name.startswith(f"{crate}/")}
    if not git("status", "--porcelain", "crates"):
        here = [datetime.date.today().isoformat(), git("rev-parse", "--short=10", "HEAD")]
        lines |= {name: [*here, *sums(edit)] for name, edit in own.items()}
    TRIED.write_text("".join(f"{name} {' '.join(words)}\n" for name, words in sorted(lines.items())))


def tried(crate: str) -> tuple[list[tuple[str, str, str]], list[str]]:
    """The plain edits of a crate that were refused as they are now, each with the day and the commit; and those that
    weren't. Those that each gate tries are left out.
    """
    known, found, others = record(), list[tuple[str, str, str]](), list[str]()
    for edit in plain_edits(crate, of_gate=False):
        day, commit, *texts = known.get(f"{crate}/{edit.name}", ["", ""])
        if texts == sums(edit):
            found.append((edit.name, day, commit))
        else:
            others.append(edit.name)
    return found, others


def when(crate: Any) -> Iterator[str]:
    """When the plain edits of a crate were tried last, and what has changed since in it and in what it uses."""
    found, never = tried(crate.name)
    folders = [f"crates/{one.name}/{part}" for one in [*crate.below(), crate] for part in ("src", "specs", "proofs")]
    for day, commit in sorted({(day, commit) for _, day, commit in found}):
        days = (datetime.date.today() - datetime.date.fromisoformat(day)).days
        changed = len(git("log", "--format=%h", f"{commit}..HEAD", "--", *folders).split())
        since = f"{changed} commits have changed it or what it uses since"
        yield f"{crate.name}: tried {days} days ago at {commit}; {since}"
    yield from [f"{crate.name}: never tried: {' '.join(never)}"] if never else []
