"""Runs of the program with the most memory that it held at once: what tests/hostile-files and tests/peak-memory share.
"""

import os
import re
from pathlib import Path
from typing import Any

from harness.places import PROGRAM, TOP, preloaded
from harness.running import Done, Word, compiled, run

PEAK = re.compile(r"\npeak (\d+)\n")


class Peaks:
    """Runs with the library of peak.c, which is built in a folder."""

    def __init__(self, folder: Path) -> None:
        library = compiled(TOP / "tests" / "c" / "peak.c", folder / "peak.so", "-shared", "-fPIC")
        self.env = os.environ | preloaded(library)

    def run(self, *words: Word, **how: Any) -> tuple[Done, int]:
        """What a run answers, its standard error without blanks at its ends, and the most memory in kilobytes."""
        done = run([PROGRAM, *words], env=self.env, **how)
        peak = max(map(int, PEAK.findall(done.stderr)), default=0)
        return done._replace(stderr=PEAK.sub("", done.stderr).strip()), peak
