"""One name means one thing: no two libraries have a type of one name, and no two files of definitions a definition."""

import re
from collections import defaultdict
from collections.abc import Iterable, Iterator, Mapping
from pathlib import Path

from harness.edits import CRATES

TYPE = re.compile(r"^ *(?:pub(?:\(crate\))? )?(?:struct|enum|trait|type) ([A-Z]\w*)", re.M)
# Operators are spelled as the logic's own are, whatever they join.
DEFINITION = re.compile(r"^ *(?:abbrev pub|pub abbrev|unfoldable pub|pub record|abbrev|record) ([^\s◌.]+) *[:({]", re.M)
RECORD = re.compile(r"^( *)pub record .*\n(?:\1  .*\n|\n)*", re.M)

# What lint still has beside screens and cert_table.
SHARED = frozenset({"Look", "rows_up_to"})


def places(files: Iterable[tuple[str, Path]], name: re.Pattern[str]) -> Mapping[str, set[str]]:
    """Where each name is, of files that are named."""
    found = defaultdict(set)
    for where, path in files:
        text = path.read_text("utf-8")
        if path.suffix == ".antt":
            # the fields of a record aren't definitions
            text = RECORD.sub(lambda one: one[0].partition("\n")[0] + "\n", text)
        for one in name.finditer(text):
            found[one[1]].add(where)
    return found


def faults(libraries: Iterable[str]) -> Iterator[str | None]:
    """For each name what else it means, or None."""
    crates = list(libraries)
    types = ((crate, path) for crate in crates for path in sorted((CRATES / crate / "src").glob("**/*.rt")))
    specs = (
        (f"{crate}/{path.stem}", path)
        for crate in crates
        for path in sorted((CRATES / crate / "specs").glob("**/*.antt"))
    )
    for kind, found in ("type", places(types, TYPE)), ("definition", places(specs, DEFINITION)):
        for name, where in sorted(found.items()):
            is_one = len(where) == 1 or name in SHARED
            yield None if is_one else f"the {kind} {name} is in {', '.join(sorted(where))}"
