"""The programs that the tests judge: each test takes their paths from here.

The variable `PAGEAUDIT` names the program, and `PAGEAUDIT_CALLS` the one that makes single calls (crates/run_bench).
Without them they are the ones that this checkout has built.

For another processor than this machine's, `PAGEAUDIT_EMULATOR` names qemu's command and `PAGEAUDIT_CC` the C compiler
(tests/on-aarch64).
"""

import os
import platform
import shlex
from pathlib import Path

TOP = Path(__file__).resolve().parents[2]


def named(variable: str, crate: str) -> Path:
    """The path that a variable holds, or that of a crate's built program."""
    return Path(os.environ.get(variable) or TOP / "crates" / crate / "out" / crate).absolute()


PROGRAM = named("PAGEAUDIT", "command_line")
CALLS = named("PAGEAUDIT_CALLS", "run_bench")
IS_ARM64 = platform.machine() in ("aarch64", "arm64")
# The folder with the library that is shipped for this machine.
SHIPPED_LIBRARY = TOP / "dist" / "aarch64" if IS_ARM64 else TOP / "dist"
EMULATOR = os.environ.get("PAGEAUDIT_EMULATOR")
CC = os.environ.get("PAGEAUDIT_CC", "cc")


def emulated(path: Path, emulator: str) -> Path:
    """Writes a script beside a program that has an emulator run it; the script's path."""
    script = path.with_name(f"{path.name}.run")
    script.write_text(f'#!/bin/sh\nexec {emulator} {shlex.quote(str(path))} "$@"\n')
    script.chmod(0o755)
    return script


def runnable(path: Path) -> Path:
    """What runs a program that was built with CC."""
    return emulated(path, EMULATOR) if EMULATOR else path


def preloaded(library: Path) -> dict[str, str]:
    """The variables of the environment that load a library before such a program."""
    return {"QEMU_SET_ENV": f"LD_PRELOAD={library}"} if EMULATOR else {"LD_PRELOAD": str(library)}
