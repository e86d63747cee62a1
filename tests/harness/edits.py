"""The functions of the crates, and their edits: what tests/contracts, tests/plain-edits and tests/must-fail-goals
share.
"""

import itertools
import re
from collections.abc import Iterable, Mapping
from dataclasses import dataclass, field
from pathlib import Path

from harness.places import TOP

CRATES = TOP / "crates"

OWNER = re.compile(r"(?:pub )?(?:impl(?:<.*?>)? (?:(?P<trait>\w+).* for )?|trait )(?P<type>\w+)")
FUNCTION = re.compile(r'( *)(pub )?(?:pub\(crate\) )?(?:extern "C" )?fn (\w+)')
CLAUSE = re.compile(r" *ensures (?:(\w+) )?\{ (.*)")
WORD = re.compile(r'"(?:\\.|[^"\\])*"|//.*|\w+|\S')

# A clause that leaves one answer, but for refused memory: an equation of the result, or of what a call leaves.
EQUATION = re.compile(
    r"\(?result(\.\w+)? ≡ |(IfOk|IfSome) result \(λ (?P<it>\w+)\. (view )?(?P=it)(\.\w+)? ≡ "
    r"|(IfOk result \(λ \w+\. )?IfOk \w+ \(λ (?P<of>\w+)\. [\w. ]+ ≡ Some \(\w+ (?P=of)\)"
    r"|(SomeIff|MatchResult) result |(OnOk result \()?(string_bytes )?\w+\.new(\.\w+)* ≡ "
    r"|(data_seen|seen|option_\w+( \w+| \(λ .*?\))?) result ≡ |slice_get \S+ \w+ ≡ Some result|⟦.*⟧\.\w+ result ≡ "
)

# Definitions that say the same of what a clause gives them.
ANSWER = re.compile(
    r"\b(AddsPrinted|AreFramesFiled|AreKeysRead|AreOrderedFaults|AreWholeFaults|Gives|HasRead|IsAskedShow"
    r"|IsAuditIntoRun|IsAuditRun|IsBaseText|IsBuilt|IsCall|IsCheckRun|IsCopied|IsExportRead|IsFilePrepared|IsKeysAnswer"
    r"|IsMap|IsOnItsWay|IsPagesRun|IsPrepared|IsRead|IsShowCall|IsViewed|IsWalkRun|Reads|TakesBytes|Turns)\b"
)


@dataclass
class Function:
    """A function: its module, the trait and type that it belongs to, its first and last line, and its clauses."""

    module: str
    trait: str
    owner: str
    name: str
    is_pub: bool
    begin: int
    end: int = 0
    clauses: list[tuple[str | None, str]] = field(default_factory=list)
    doc: str = ""
    is_empty: bool = False

    @property
    def title(self) -> str:
        return f"{self.owner}::{self.name}" if self.owner else self.name

    def has_one_answer(self) -> bool:
        """Whether a clause of it leaves one answer."""
        return any(EQUATION.match(text) or ANSWER.search(text) for _, text in self.clauses)

    def is_exported(self, names: set[str]) -> bool:
        """Whether it is one of the names that its crate exports, or a function of one of these."""
        is_open = self.is_pub or bool(self.trait)
        return is_open and not names.isdisjoint({self.owner or self.name, self.trait})

    def is_law(self) -> bool:
        """Whether it does nothing, but for calling other laws."""
        return self.is_empty or self.module.endswith("laws")

    @property
    def path(self) -> str:
        """The end of its name as rt has it: a type's module needn't be the one of its methods."""
        if self.owner:
            return f"{self.owner}+{self.trait}::{self.name}" if self.trait else self.title
        return self.name if self.module == "lib" else f"{self.module}::{self.name}"


def exported(crate: str) -> set[str]:
    """The names that a crate exports."""
    text = (CRATES / crate / "src" / "lib.rt").read_text("utf-8")
    groups = re.findall(r"^pub use \w+(?:::\w+)*::(?:\{([^}]*)\}|(\w+));", text, re.M)
    return {name.strip() for group in groups for name in (group[0] or group[1]).split(",")} - {""}


def doc_above(lines: list[str]) -> str:
    """The documentation that the lines end with, as one line."""
    above = list(itertools.takewhile(lambda line: re.match(r" *(///|#)", line), reversed(lines)))
    return " ".join(line.strip()[4:] for line in reversed(above) if line.strip().startswith("///"))


def clause_text(lines: Iterable[str]) -> str:
    """The text of the clause that begins in the first line, whose braces may end some lines below."""
    text = ""
    for line in lines:
        text = f"{text} {line.strip()}".strip()
        if text.count("{") <= text.count("}"):
            break
    return CLAUSE.sub(r"\2", text).removesuffix("}").rstrip()


def functions(path: Path) -> list[Function]:
    """The functions of a file, in their order."""
    lines = path.read_text("utf-8").split("\n")
    found: list[Function] = []
    owner = "", ""
    for number, line in enumerate(lines):
        if named := OWNER.match(line):
            owner = named["trait"] or "", named["type"]
        elif line == "}":
            owner = "", ""
        if header := FUNCTION.match(line):
            found.append(Function(path.stem, *(owner if header[1] else ("", "")), header[3], bool(header[2]), number))
            found[-1].doc = doc_above(lines[:number])
        elif found and (clause := CLAUSE.match(line)):
            found[-1].clauses.append((clause[1], clause_text(lines[number:])))
    for one, end in zip(found, [*(other.begin for other in found[1:]), len(lines)]):
        one.end = end
        one.is_empty = "{}" in map(str.strip, lines[one.begin : one.end])
    return found


@dataclass
class Change:
    """One text of a file of a crate, and the text in its place."""

    path: Path
    old: str
    new: str

    def places(self) -> list[Function | None]:
        """Where the old text is: in a function, or None outside of all."""
        source, found = self.path.read_text("utf-8"), functions(self.path)
        lines = [source.count("\n", 0, place.start()) for place in re.finditer(re.escape(self.old), source)]
        return [next((one for one in found if one.begin <= line < one.end), None) for line in lines]

    def says_the_same(self) -> bool:
        """Whether both texts have the same words, blanks and comments aside."""
        old, new = ([word for word in WORD.findall(text) if not word.startswith("//")] for text in (self.old, self.new))
        return old == new


@dataclass
class Edit:
    """A wrong change of a crate, its file, and the functions that it says are to be checked: of a trait, or outside of
    all, it can't be seen which.
    """

    path: Path
    changes: list[Change]
    checked: list[str]

    @property
    def name(self) -> str:
        return self.path.stem

    def is_of_functions(self) -> bool:
        """Whether it is known which functions are to be checked: it names them, or changes functions of no trait."""
        return bool(self.checked) or all(place and not place.trait for place in self.functions())

    def paths(self) -> list[str]:
        """The functions that are to be checked, as rt has them: those that it names or changes."""
        return self.checked or sorted({place.path for place in self.functions() if place})

    def functions(self) -> list[Function | None]:
        """The functions that it changes, None for what is outside of all."""
        return [place for change in self.changes for place in change.places()]

    def leaves_one_answer(self) -> bool:
        """Whether all that it changes are functions of which a clause leaves one answer."""
        return all(one and one.has_one_answer() for one in self.functions())

    def applied(self, texts: Mapping[Path, str]) -> dict[Path, str] | None:
        """The texts of files with the change made too, or None if an old text isn't there once."""
        made = dict(texts)
        for change in self.changes:
            text = made.get(change.path) or change.path.read_text("utf-8")
            if text.count(change.old) != 1:
                return None
            made[change.path] = text.replace(change.old, change.new)
        return made


def edit_of(path: Path) -> Edit:
    crate = file = path.parents[1]
    old, changes, checked = "", list[Change](), list[str]()
    for line in path.read_text("utf-8").split("\n"):
        word, _, rest = line.partition(":")
        if word == "file":
            file = crate / rest.strip()
        elif word == "old":
            old = rest[1:]
        elif word == "new":
            changes.append(Change(file, old, rest[1:]))
        elif word == "# check":
            checked.append(rest.strip())
    return Edit(path, changes, checked)


def edits(crate: str, folder: str = "must-fail") -> list[Edit]:
    """The edits of a folder of a crate."""
    return [edit_of(path) for path in sorted((CRATES / crate / folder).glob("*.edit"))]


def plain_edits(crate: str, *, of_gate: bool) -> list[Edit]:
    """The edits in a crate's plain-edits/ that each gate tries, or the others. It tries those of an exported function
    whose clause leaves more than one answer. A clause of another function is only a step of a proof: if it is too weak,
    that of an exported one fails.
    """
    every = edits(crate, "plain-edits")
    names = exported(crate) if every else set[str]()

    def is_of_gate(edit: Edit) -> bool:
        is_promised = any(one is None or one.is_exported(names) for one in edit.functions())
        return is_promised and not edit.leaves_one_answer()

    return [edit for edit in every if is_of_gate(edit) is of_gate]
