"""The parts of the gate: the scripts that ./test runs. tests/contracts judges that no script is left out, and
tests/dist-make tries ./test over stand-ins for them."""

import os
import re
from collections.abc import Iterator
from pathlib import Path

from harness.places import TOP

# Scripts that aren't parts of ./test: what measures, and what './test CRATE', a part or no gate runs.
NO_PARTS = {"call-times", "line-counts", "must-fail-goals", "own-system", "plain-edits", "speeds", "time-gate"}
NO_PARTS |= {"without-toolchain"}


def parts() -> list[str]:
    """The scripts that ./test runs."""
    found = re.search(r"^parts=\((.*?)\)", (TOP / "test").read_text("utf-8"), re.M | re.S)
    return found[1].split() if found else []


def scripts() -> dict[str, Path]:
    """The executable files of tests/ and tools/ by their names."""
    files = [path for folder in ("tests", "tools") for path in sorted((TOP / folder).iterdir()) if path.is_file()]
    return {path.name: path for path in files if os.access(path, os.X_OK)}


def faults() -> Iterator[str | None]:
    """For each script and each part of ./test what is wrong, or None; and what is wrong with the end of .ci/run."""
    named, there = [*parts(), *NO_PARTS], scripts()
    for name in sorted({*there, *named}):
        is_right = name in there and named.count(name) == 1
        wrong = f"{name} has to be there, and once a part of ./test or named as none: {named.count(name)}"
        yield None if is_right else wrong
    last = (TOP / ".ci" / "run").read_text("utf-8").splitlines()[-1]
    yield None if last == "CI=true exec ./test" else f".ci/run ends by '{last}', not by 'CI=true exec ./test'"
