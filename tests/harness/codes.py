"""docs/CODES.md, as tests/codes-page and tools/explain-words read it.

A heading of rank 2 begins a part, one of rank 3 the section of a printed word. Its examples are run beside the files of
its part; a part without files has those of the part before. The table of words at the top has a row for each section,
which links to it. The stream and the status of an example follow from what it prints, as in the page's table of exit
statuses.
"""

import re
from collections.abc import Iterator
from dataclasses import dataclass, field

from harness.pages import Block, File, Run, Section, sections
from harness.places import TOP

PAGE = TOP / "docs" / "CODES.md"
# What is printed, on which stream, with which status; the first that fits. All else is an answer with status 0.
STATUSES = [
    (r"^(error|groups|keys): ", "stderr", 2),
    (r"^(base|certificate|new base|new certificate|output): ", "stderr", 3),
    (r"\b(FAULTS|REFUSED|ENTRYMISSING|ENTRYCLOSED)\b", "stdout", 1),
]


@dataclass
class Row:
    """A row of the table of words."""

    words: list[str]
    anchor: str
    meaning: str


@dataclass
class Entry(Section):
    """A section with its part, and the files of its part."""

    part: str = ""
    shared: list[File] = field(default_factory=list)

    @property
    def anchor(self) -> str:
        return re.sub(r"[^a-z0-9 ]", "", self.title.lower()).replace(" ", "-")


def with_status(block: Block) -> Block:
    """A run with the stream and the status of what it prints."""
    if isinstance(block, Run) and not block.stderr:
        for pattern, stream, status in STATUSES:
            if re.search(pattern, block.stdout, re.M):
                block.status = status
                if stream == "stderr":
                    block.stdout, block.stderr = "", block.stdout
                break
    return block


def entries() -> Iterator[Entry]:
    """The page's sections in order, those of rank 2 too."""
    part, shared = "", list[File]()
    for one in sections(PAGE)[1:]:
        if one.rank < 3:
            part, shared = one.title, one.files or shared
        files = [] if one.rank < 3 else shared
        yield Entry(one.rank, one.title, [with_status(block) for block in one.blocks], one.text, part, files)


def rows() -> Iterator[Row]:
    """The table of words."""
    for line in PAGE.read_text("utf-8").splitlines():
        if row := re.fullmatch(r"\[((?:`[^`]+` ?)+)\]\(#([^)]+)\) \| (.+)", line):
            yield Row(re.findall(r"`([^`]+)`", row[1]), row[2], row[3])
