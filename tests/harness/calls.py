"""The program that makes one call on an input, crates/run_bench: what tests/refuse-calls and failing-devices share."""

import os
import shutil
from threading import Lock

from harness.places import CALLS, TOP
from harness.running import run


BUILDING = Lock()


def is_current() -> bool:
    sources = [path for part in ("src", "specs", "proofs") for path in TOP.glob(f"crates/*/{part}/**/*.*")]
    built = CALLS.stat().st_mtime if CALLS.exists() else 0
    return all(path.stat().st_mtime <= built for path in [*sources, TOP / "crates.txt"])


def are_here() -> bool:
    """Whether the program of the calls is named by the environment, is built of these sources or can be built."""
    return bool(os.environ.get("PAGEAUDIT_CALLS") or is_current() or shutil.which("rt"))


def build() -> None:
    """Proves and builds the program of the calls if it isn't current, unless the environment names another."""
    with BUILDING:
        if not os.environ.get("PAGEAUDIT_CALLS") and not is_current():
            _build()


def _build() -> None:
    print("proving and building crates/run_bench ..", flush=True)
    done = run(["rt", "run", "--", "call", "keys_read", "1"], cwd=TOP / "crates" / "run_bench", seconds=7_200)
    if done.status:
        raise OSError(f"crates/run_bench can't be built: {done.stdout}{done.stderr}")
    CALLS.touch()
