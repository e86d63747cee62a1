"""A copy of what ./pageaudit and ./install need of this repository, with the built program as its shipped one."""

import hashlib
import os
import shutil
from collections.abc import Iterable
from pathlib import Path
from typing import Any

from harness.places import IS_ARM64, PROGRAM, TOP
from harness.running import Done, Word, run, with_path

SHIPPED = Path("dist", "aarch64", "pageaudit-aarch64-linux") if IS_ARM64 else Path("dist", "pageaudit-x86_64-linux")
FOLDERS = ["dist", "docs", "examples", "include"]
FILES = ["pageaudit", "install", "test", "crates.txt"]


def sums(top: Path, paths: Iterable[Path | str]) -> str:
    return "".join(f"{hashlib.sha256((top / path).read_bytes()).hexdigest()}  {path}\n" for path in paths)


def copied(top: Path) -> Path:
    """Makes the copy: its lists of checksums hold, even if those of this repository don't."""
    for name in FOLDERS:
        shutil.copytree(TOP / name, top / name)
    for name in FILES:
        shutil.copy(TOP / name, top / name)
    for source in sorted((TOP / "crates").glob("*/src")):
        shutil.copytree(source, top / source.relative_to(TOP))
    shutil.copy(PROGRAM, top / SHIPPED)
    ship(top)
    return top


def ship(top: Path) -> None:
    """Writes the lists of checksums anew for the listed files as they are now, without those that aren't there."""
    for folder, name in (top, "SOURCES"), (top / "dist", "SHA256SUMS"):
        paths = [path for path in listed(top / "dist" / name) if (folder / path).exists()]
        (top / "dist" / name).write_text(sums(folder, paths))


def listed(path: Path) -> list[str]:
    """The files in a list of checksums."""
    return [line.split()[1] for line in path.read_text().splitlines()]


def call(
    top: Path, name: Word, *words: Word, env: dict[str, str] | None = None, cwd: Path | str = "/", **how: Any
) -> Done:
    """Runs a script of a copy, without the toolchain unless the environment has it."""
    return run([top / str(name), *words], env=env or without_rt(), cwd=cwd, **how)


def append(path: Path, text: str = " \n") -> None:
    with open(path, "a", encoding="utf-8") as file:
        file.write(text)


def flip(path: Path) -> None:
    """Changes one byte."""
    data = bytearray(path.read_bytes())
    data[len(data) // 2] ^= 1
    path.write_bytes(data)


def executable(path: Path, text: str) -> None:
    """Writes a script that can be run."""
    path.parent.mkdir(parents=True, exist_ok=True)
    path.write_text(text)
    path.chmod(0o755)


def on(machine: str, folder: Path) -> dict[str, str]:
    """The environment of a machine that 'uname -sm' calls so; a folder has its uname."""
    executable(folder / "uname", f"#!/bin/sh\necho {machine}\n")
    return with_path(folder, without_rt())


def without_rt() -> dict[str, str]:
    """The environment with no folder on PATH that has the toolchain's command."""
    folders = [folder for folder in os.environ["PATH"].split(":") if not Path(folder, "rt").exists()]
    return os.environ | {"PATH": ":".join(folders)}
