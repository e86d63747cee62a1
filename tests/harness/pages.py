"""The pages whose blocks are run, as tests/pages and tests/codes-page do.

The words after the opening fence say what a block is:

    sh            commands
    text          what the commands before it print on standard output
    text stderr   what they print on standard error
    sh setup      commands that prepare the folder: they have to end with status 0, and what they print isn't compared
    diff NAME     a unified diff, which is applied to the file of that name
    .. NAME       any other language and a name: a file of that name

The line of words before an output gives the status, `status N`, if it isn't 0. If it has `standard error`, a block of
`text` alone is standard error too. Commands without an output print nothing.
"""

import os
import re
import shutil
from collections.abc import Iterable, Iterator
from dataclasses import dataclass, field
from pathlib import Path

from harness.places import PROGRAM
from harness.results import Test
from harness.running import Done, run, with_path


@dataclass
class File:
    """A file that a page gives."""

    name: str
    text: str


@dataclass
class Setup:
    """Commands that prepare the folder for the commands of the page."""

    line: int
    commands: str


@dataclass
class Diff:
    """A change of a file that the page gave before."""

    line: int
    name: str
    text: str


@dataclass
class Run:
    """Commands of a page with what they have to print."""

    line: int
    commands: str
    stdout: str = ""
    stderr: str = ""
    status: int = 0

    def takes(self, text: str, name: str | None, said: str) -> None:
        """Takes an output block, the name after its language, and the line of words before it."""
        if name == "stderr" or "standard error" in said:
            self.stderr = text
        else:
            self.stdout = text
        if status := re.search(r"[Ss]tatus (\d+)", said):
            self.status = int(status[1])

    @property
    def printed(self) -> str:
        return self.stdout + self.stderr


Block = File | Setup | Diff | Run


@dataclass
class Section:
    """A heading's rank and words, and the text and the blocks beneath it up to the next heading."""

    rank: int
    title: str
    blocks: list[Block] = field(default_factory=list)
    text: str = ""

    @property
    def runs(self) -> list[Run]:
        return [block for block in self.blocks if isinstance(block, Run)]

    @property
    def files(self) -> list[File]:
        return [block for block in self.blocks if isinstance(block, File)]

    @property
    def paragraphs(self) -> list[str]:
        """The paragraphs of the text, without the blocks."""
        return [part.strip("\n") for part in re.split(r"\n{2,}", self.text) if part.strip()]

    def add(self, number: int, language: str, name: str | None, text: str, said: str) -> None:
        """Adds the block that begins in a line, after a line of words."""
        if (language, name) == ("sh", "setup"):
            self.blocks.append(Setup(number, text))
        elif language == "diff" and name:
            self.blocks.append(Diff(number, name, text))
        elif language == "text" and name in (None, "stderr") and self.runs:
            self.runs[-1].takes(text, name, said)
        elif name:
            self.blocks.append(File(name, text))
        elif language == "sh":
            self.blocks.append(Run(number, text))
        else:
            raise ValueError(f"line {number}: a block that is neither a file nor commands nor an output")


def block_from(lines: Iterator[tuple[int, str]]) -> str:
    """The lines of a block up to its end, which is taken from the lines too."""
    text = ""
    for _, line in lines:
        if line.startswith("```"):
            return text
        text += line + "\n"
    raise ValueError("a block without an end")


def sections(path: Path) -> list[Section]:
    """A page cut at its headings."""
    found, said = [Section(0, "")], ""
    lines = iter(enumerate(path.read_text("utf-8").split("\n"), 1))
    for number, line in lines:
        if heading := re.fullmatch(r"(#+) (.*)", line):
            found.append(Section(len(heading[1]), heading[2]))
        elif opening := re.fullmatch(r"```(\S+)(?: (\S+))?", line):
            found[-1].add(number, opening[1], opening[2], block_from(lines), said)
            found[-1].text, said = found[-1].text + "\n", ""
        else:
            found[-1].text += line + "\n"
            said = line if line.strip() else said
    return found


def blocks_of(page: Iterable[Section]) -> list[Block]:
    return [block for section in page for block in section.blocks]


def examples(page: list[Section]) -> Iterator[tuple[Section, list[Block]]]:
    """Each section with its own blocks after the files of the sections that it is in."""
    outer: list[Section] = []
    for section in page:
        outer = [one for one in outer if one.rank < section.rank]
        yield section, [*(file for one in outer for file in one.files), *section.blocks]
        outer.append(section)


def surroundings(folder: Path) -> dict[str, str]:
    """The variables of a run: the program is on the path, and git takes no settings from outside."""
    words = folder / "path"
    words.mkdir()
    (words / "pageaudit").symlink_to(PROGRAM)
    own = {"HOME": str(folder), "LC_ALL": "C", "GIT_CONFIG_GLOBAL": os.devnull, "GIT_CONFIG_SYSTEM": os.devnull}
    for name in "AUTHOR", "COMMITTER":
        own |= {f"GIT_{name}_NAME": "provider", f"GIT_{name}_EMAIL": "provider@example.org"}
    kept = {key: value for key, value in os.environ.items() if not key.startswith("GIT_")}
    return with_path(words, kept | own)


def patched(lines: list[str], diff: str) -> list[str] | None:
    """Lines with a unified diff applied, or None if the old lines of a hunk aren't there; of several places the one
    nearest to what the hunk says. An empty line is one that stays, as its blank is easily lost."""
    new: list[str] = []
    at = 0
    for hunk in re.split("^@@ -", diff, flags=re.M)[1:]:
        head, *body = hunk.splitlines(True)
        body = [" \n" if line == "\n" else line for line in body]
        said = int(re.sub(r"\D.*\n", "", head)) - 1
        old = [line[1:] for line in body if line[0] in " -"]
        places = [place for place in range(at, len(lines)) if lines[place : place + len(old)] == old]
        if not places:
            return None
        begin = min(places, key=lambda place: abs(place - said))
        new += lines[at:begin] + [line[1:] for line in body if line[0] in " +"]
        at = begin + len(old)
    return new + lines[at:]


def change(test: Test, diff: Diff, folder: Path) -> None:
    """Changes a file by a diff."""
    path = folder / diff.name
    lines = patched(path.read_text("utf-8").splitlines(True), diff.text)
    if lines is None:
        test.check(False, f"line {diff.line}: the diff doesn't fit {diff.name}")
    else:
        path.write_text("".join(lines), "utf-8")


def follow(test: Test, blocks: Iterable[Block], given: Iterable[Path] = ()) -> None:
    """Goes through blocks in the test's folder with copies of the given files: a result for each run, and for what
    hinders one.
    """
    env, folder = surroundings(test.folder), test.folder / "work"
    folder.mkdir()
    for file in given:
        shutil.copy(file, folder)
    for block in blocks:
        if isinstance(block, File):
            (folder / block.name).write_text(block.text, "utf-8")
        elif isinstance(block, Diff):
            change(test, block, folder)
        elif isinstance(block, Run):
            found = run(["bash", "-c", block.commands], cwd=folder, env=env)
            test.equal(found, Done(block.status, block.stdout, block.stderr), f"line {block.line}")
        else:
            found = run(["bash", "-e", "-o", "pipefail", "-c", block.commands], cwd=folder, env=env)
            if found.status:
                test.check(False, f"line {block.line}: {found}")
