"""A stand-in for the kit, as far as dist/make and ./test ask: it proves anything, and what it builds shows what of.

It is in tests/data/kit. A library is the last line of its src/lib.rt, and the program prints the lines of those that it
uses. As with the kit, 'rt ci' puts the libraries back at its end that it found, and writes no stamp.
"""

import re
from collections.abc import Mapping
from pathlib import Path

from harness.copies import executable, without_rt
from harness.places import PROGRAM, TOP
from harness.running import with_path

KIT = TOP / "tests" / "data" / "kit"
FILES = {
    str(path.relative_to(KIT)): path.read_text().replace("'PROGRAM'", f"'{PROGRAM}'")
    for path in sorted(KIT.rglob("*"))
    if path.is_file() and path.suffix != ".pyc"
}
FILES |= {"toolchain/lib/libc.so.6": "", "sysroot/lib/libc.so.6": "", "c/liblibc_c.a": "malloc\n"}
RT, RATTLE = FILES["bin/rt"], FILES["bin/rattle"]
# What a proof ends with.
PROVED = RATTLE.splitlines()[-1].removeprefix("echo ").strip("'")


def kit_crates(top: Path) -> set[str]:
    """The kit's crates that those of a repository name."""
    lines = [line.partition("#")[0].partition(":") for line in (top / "crates.txt").read_text().splitlines()]
    own = {name.split()[0] for name, colon, _ in lines if colon}
    return {dep for _, _, deps in lines for dep in deps.split()} - own | {"std"}


def with_kit(top: Path, files: Mapping[str, str] | None = None) -> dict[str, str]:
    """Writes the stand-in beside a copy of the repository, some of its files changed, and gives an environment that has
    it.
    """
    home = top / "kit"
    texts = {**FILES, **{f"rlibs/{name}.rlib/format": "" for name in kit_crates(top)}, **(files or {})}
    for name, text in texts.items():
        executable(home / name, text)
        (home / name).chmod(0o755 if re.match(r"(toolchain/)?bin/", name) else 0o644)
    return with_path(home / "bin", without_rt()) | {"AARCH64_SYSROOT": str(home / "sysroot")}
