"""Commands, run with limits of time and memory."""

import os
import subprocess
import sys
from collections.abc import Iterator, Mapping, Sequence
from contextlib import contextmanager
from importlib.util import find_spec
from pathlib import Path
from tempfile import TemporaryDirectory
from typing import IO, Any, NamedTuple

from harness.places import CC, PROGRAM

Word = str | int | Path
# What takes longer hangs: no test is timed, and a loaded machine may be ten times slower, an emulated processor too.
SECONDS = 600
DEBIAN = "/usr/bin/python3"


class Done(NamedTuple):
    """How a command ended, and what it printed on each output; bytes that are no UTF-8 are surrogates."""

    status: int
    stdout: str
    stderr: str

    @property
    def bytes(self) -> bytes:
        """What it printed on standard output."""
        return self.stdout.encode("utf-8", "surrogateescape")


def text_of(data: bytes | None) -> str:
    return (data or b"").decode("utf-8", "surrogateescape")


def run(
    words: Sequence[Word],
    *,
    input: str | bytes = b"",
    env: Mapping[str, str] | None = None,
    cwd: Path | str | None = None,
    seconds: float = SECONDS,
    megabytes: int | None = None,
    stdout: IO[bytes] | int = subprocess.PIPE,
    stderr: IO[bytes] | int = subprocess.PIPE,
    **how: Any,
) -> Done:
    """Runs a command. One that doesn't end in time has no status of its own but -9, and its standard error says so.

    `env` is the whole environment; `megabytes` limits the memory that it can address; `how` is for `subprocess.run`.
    """
    command = [str(word) for word in words]
    if megabytes is not None:
        command = ["sh", "-c", f'ulimit -v {megabytes * 1024} && exec "$0" "$@"', *command]
    if "stdin" not in how:
        how["input"] = input.encode("utf-8", "surrogateescape") if isinstance(input, str) else input
    try:
        done = subprocess.run(
            command, env=env, cwd=cwd, timeout=seconds, stdout=stdout, stderr=stderr, check=False, **how
        )
    except subprocess.TimeoutExpired as late:
        return Done(-9, text_of(late.stdout), f"{text_of(late.stderr)}it doesn't end in {seconds} seconds\n")
    return Done(done.returncode, text_of(done.stdout), text_of(done.stderr))


def program(*words: Word, **how: Any) -> Done:
    """Runs the program that is judged."""
    return run([PROGRAM, *words], **how)


def compiled(
    sources: Path | Sequence[Path], to: Path, *options: Word, compiler: str = CC, libraries: Sequence[Word] = ()
) -> Path:
    """Compiles C sources; what isn't compiled is an error."""
    every = [sources] if isinstance(sources, Path) else sources
    done = run([compiler, "-O1", *options, *every, *libraries, "-o", to])
    if done.status:
        raise OSError(f"{to.name} isn't compiled: {done.stderr}")
    return to


@contextmanager
def scratch() -> Iterator[Path]:
    """A folder of its own for as long as it is used."""
    with TemporaryDirectory(prefix="pageaudit-") as folder:
        yield Path(folder)


def has_module(name: str) -> bool:
    """Whether Python has a module of a Debian package; Debian's Python takes over if only it has it."""
    if find_spec(name):
        return True
    if os.path.realpath(sys.executable) != os.path.realpath(DEBIAN) and os.access(DEBIAN, os.X_OK):
        os.execv(DEBIAN, [DEBIAN, *sys.argv])
    return False


def with_path(folder: Path, env: Mapping[str, str]) -> dict[str, str]:
    """An environment in which a folder's commands come before all others."""
    return {**env, "PATH": f"{folder}{os.pathsep}{env['PATH']}"}
