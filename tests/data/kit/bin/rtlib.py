"""The stand-in for rt's own module."""

from collections.abc import Sequence
from pathlib import Path

RATTLE = str(Path(__file__).resolve().with_name("rattle"))


class Crate:
    """A crate of a repository; it is built if its stamp is the last line of its source."""

    def __init__(self, folder: Path) -> None:
        self.name, self.folder = folder.name, folder
        self.rlib = str(folder / "out" / "rlib" / f"{folder.name}.rlib")

    def is_built(self) -> bool:
        last = (self.folder / "src" / "lib.rt").read_text().splitlines()[-1]
        return Path(self.rlib).with_name("stamp").read_text() == f"{last}\n"

    def count(self, _: bytes) -> int:
        return 1

    def below(self) -> "list[Crate]":
        return []

    def words(self, words: Sequence[str], keeps: bool) -> list[str]:
        return ["--crate-name", self.name, *words]


def crates_below(top: str) -> list[Crate]:
    return [Crate(path.parents[1]) for path in Path(top).glob("crates/*/src/lib.rt")]
