"""Why the prover refuses an edit: what tests/plain-edits and tests/must-fail-goals share.

A refusal counts if a goal is named that isn't proved: what a clause ensures, an invariant, the condition of a call. An
answer in proofs/..Answers.antt that no longer fits is none, since it fits one form of the body. The prover is given
such an answer as a fact, and has to prove the goal from it: so `at + 0` for `at` is still proved. Whether the goals of
a new branch are false isn't judged: they are named also if the branch changes nothing.
"""

import importlib
import re
import shutil
import subprocess
import sys
from collections.abc import Collection, Iterable, Iterator, Mapping
from dataclasses import dataclass, field
from pathlib import Path
from tempfile import TemporaryDirectory
from typing import Any

from harness.edits import Edit

NOTE = re.compile(r"note: src/\S+: it is not proved that ")
GOAL = re.compile(r"\(`([\w-]+)`\)")
FUNCTION = re.compile(r"fn \w+::(\S+): (.*)")
ANSWER = re.compile(r"(?:\./)?(proofs/\S+/Answers\.antt):\d+:\d+: error: `([\w-]+)`: (.*)")
# A search within an answer, or for a goal from an answer, that finds no proof.
SEARCH = re.compile(r"`(?:search|grind|omega|cc|tauto)`")
CALLS = re.compile(r"(?:^no proof: |; )it calls `.*?, which (?:is|are) not proved")
FACT = "written_answer"
UNTRIED = "it can't be tried"
# How an answer may begin: what it names first, and what it takes.
BEGINNING = re.compile(r"let .*? in\n\s*|λ (?:\([^()]*\)|[^().])+\.\s+", re.S)
# A field of a record with a value that is no record, on lines of its own.
FIELD = re.compile(r"^( +\w+ =)\s(?!record)(.*?);$", re.M | re.S)
# What an answer that is given as a fact needs: a module and a name.
NEEDED = [("Rattle.std.proofs.Common", "arith"), ("Rattle.std.proofs.lemmas.Grind", "common_steps")]


@dataclass
class Said:
    """What a check says of a function: its line, the goals that aren't proved, and the answers that don't fit, by their
    files.
    """

    line: str = ""
    goals: list[str] = field(default_factory=list)
    answers: list[tuple[str, str]] = field(default_factory=list)

    def is_proved(self) -> bool:
        return self.line == "proved"

    def is_refused(self) -> bool:
        """Whether its own proof fails, and not only that of what it calls."""
        return bool(re.match("no proof|not proved", CALLS.sub("", self.line)))


def said_of(printed: str) -> dict[str, Said]:
    """For each function, as its module's path has it, what a check that printed this says of it."""
    found: dict[str, Said] = {}
    answers: list[tuple[str, str, str]] = []
    goals: list[str] = []
    for line in printed.splitlines():
        if answer := ANSWER.match(line):
            answers.append((answer[1], answer[2], answer[3]))
        elif NOTE.match(line):
            goals += GOAL.findall(line)
        elif function := FUNCTION.match(line):
            folder = f"proofs/{function[1].replace('::', '/')}/Answers.antt"
            own = [(file, goal, words) for file, goal, words in answers if file == folder]
            goals += [goal for _, goal, words in own if SEARCH.match(words)]
            found[function[1]] = Said(
                function[2], goals, [(file, goal) for file, goal, words in own if not SEARCH.match(words)]
            )
            goals = []
    return found


def names_a_goal(line: str) -> bool:
    """Whether a line says that a goal isn't proved."""
    answer = ANSWER.match(line)
    return bool(NOTE.match(line) or (answer and SEARCH.match(answer[3])))


def held(term: str) -> str:
    """What the prover finds from a term's type; a search has none."""
    return (
        term
        if SEARCH.match(f"`{term.split()[0]}`")
        else f"let {FACT} = (\n    {term}\n    ) in grind (arith, common_steps, {FACT})"
    )


def as_fact(text: str, goal: str) -> str | None:
    """The text of a file of answers with that to one goal as a fact, or None if it can't be found."""
    found = re.search(rf"^{re.escape(goal)} [^\n=]+ =\s+(.*?)(?=\n\n|\n*\Z)", text, re.M | re.S)
    if not found:
        return None
    begin, end = found.span(1)
    while beginning := BEGINNING.match(text, begin, end):
        begin = beginning.end()
    if text.startswith("record {", begin):
        given = FIELD.sub(lambda one: f"{one[1]} ({held(one[2])});", text[begin:end])
    else:
        given = held(text[begin:end])
    return text[:begin] + given + text[end:]


def with_names(text: str) -> str:
    """The text of a file of answers, with the lines that bring in what a fact needs."""
    lines = [
        f"use {module}.{{{name}}}\n"
        for module, name in NEEDED
        if not re.search(rf"^use {re.escape(module)}\.{{.*\b{name}\b", text, re.M)
    ]
    return "".join(lines) + text


# Checks


def kit() -> Any:
    """rt's own module, which knows what a check of a crate is given."""
    sys.dont_write_bytecode = True
    sys.path.insert(0, str(Path(shutil.which("rt") or "rt").resolve().parent))
    return importlib.import_module("rtlib")


def check(crate: Any, texts: Mapping[Path, str], paths: Iterable[str]) -> str:
    """What a check of some functions of a crate, or of all, prints with these texts in place of its own."""
    only = [word for path in paths for word in ("--only", path)]
    with TemporaryDirectory(prefix="rt-edit-") as room:
        for part in ("src", "specs", "proofs"):
            if Path(crate.folder, part).is_dir():
                shutil.copytree(Path(crate.folder, part), Path(room, part))
        for path, text in texts.items():
            Path(room, path.relative_to(crate.folder)).write_text(text, "utf-8")
        words = [kit().RATTLE, "check", *crate.words(["--jobs", "1", *only], keeps=False)]
        if (kept := Path(crate.folder, "out", "incremental")).is_dir():
            words += ["--incremental", kept]
        done = subprocess.run(
            words, cwd=room, stdin=subprocess.DEVNULL, capture_output=True, text=True, errors="replace", check=False
        )
    return done.stdout + done.stderr


def with_facts(crate: Any, texts: Mapping[Path, str], answers: Iterable[tuple[str, str]]) -> dict[Path, str]:
    """The texts, with these answers as facts."""
    made = dict(texts)
    for file, goal in answers:
        path = Path(crate.folder, file)
        text = made.get(path) or path.read_text("utf-8")
        made[path] = with_names(as_fact(text, goal) or text)
    return made


def is_of(name: str, path: str) -> bool:
    """Whether a function of a check's lines is the one of a path."""
    return f"::{name}".endswith(f"::{path}")


def answers_of(edit: Edit, line: str) -> list[tuple[str, str]]:
    """The answer that a line names as one that no longer fits, if it is that of a function of the edit."""
    found = ANSWER.match(line)
    if not found or SEARCH.match(found[3]):
        return []
    name = found[1].removeprefix("proofs/").removesuffix("/Answers.antt").replace("/", "::")
    return [(found[1], found[2])] if any(is_of(name, path) for path in edit.paths()) else []


def of_paths(printed: str, paths: Collection[str]) -> list[Said]:
    """What a check that printed this says of each function of these paths, or of each."""
    return [said for name, said in said_of(printed).items() if not paths or any(is_of(name, path) for path in paths)]


def lacks_goals(said: list[Said]) -> bool:
    """Whether only answers don't fit: as facts, they can show which goals aren't proved."""
    return any(one.answers for one in said) and not any(one.goals for one in said)


def verdict(said: list[Said]) -> str | None:
    """Why an edit of which a check said this isn't refused for its meaning, or None."""
    if any(one.goals for one in said):
        return None
    if said and all(one.is_proved() for one in said):
        return "it is still proved"
    return (
        "no goal is named, only an answer in proofs/ that no longer fits"
        if any(one.is_refused() for one in said)
        else UNTRIED
    )


def fault_of(crate: Any, texts: Mapping[Path, str], paths: Collection[str], said: list[Said]) -> str | None:
    """Why the edit that makes these texts isn't refused for its meaning, or None. A check of these functions, or of
    all, said this.
    """
    if lacks_goals(said):
        answers = [answer for one in said for answer in one.answers]
        said = of_paths(check(crate, with_facts(crate, texts, answers), paths), paths)
    return verdict(said)


# Edits

Part = tuple[list[Edit], dict[Path, str] | None]
# What rt said of edits, by their names.
Lines = Mapping[str, str]


def batches(tried: Iterable[Edit]) -> Iterator[tuple[list[Edit], dict[Path, str]]]:
    """Edits that can be tried together, with their texts: no function is changed twice, no name of one is the end of
    another's, and each text can still be changed.
    """
    waiting = list(tried)
    while waiting:
        batch, texts, taken, later = list[Edit](), dict[Path, str](), set[str](), list[Edit]()
        for edit in waiting:
            paths = set(edit.paths())
            clash = any(is_of(one, other) or is_of(other, one) for one in paths for other in taken)
            applied = None if clash else edit.applied(texts)
            if applied is None:
                later.append(edit)
            else:
                batch, texts, taken = [*batch, edit], applied, taken | paths
        if not batch:
            raise ValueError(f"the texts of {' '.join(edit.name for edit in later)} aren't there once")
        yield batch, texts
        waiting = later


def said_of_batch(crate: Any, batch: list[Edit], texts: Mapping[Path, str], lines: Lines) -> dict[str, list[Said]]:
    """What is said of each edit of a batch, by its name: first of all, with what is known of answers that don't fit,
    and then, if only others don't, with these as facts too.
    """
    paths = {edit.name: edit.paths() for edit in batch}
    known = [answer for edit in batch for answer in answers_of(edit, lines.get(edit.name, ""))]
    printed = check(crate, with_facts(crate, texts, known), sum(paths.values(), []))
    said = {name: of_paths(printed, of) for name, of in paths.items()}
    if again := [name for name in paths if lacks_goals(said[name])]:
        answers = known + [answer for name in again for one in said[name] for answer in one.answers]
        printed = check(crate, with_facts(crate, texts, answers), sum((paths[name] for name in again), []))
        said |= {name: of_paths(printed, paths[name]) for name in again}
    return said


def alone(crate: Any, edit: Edit) -> str | None:
    """Why an edit that is tried alone isn't refused for its meaning, or None. All functions are checked if it isn't
    known which.
    """
    texts, paths = edit.applied({}) or {}, edit.paths() if edit.is_of_functions() else []
    return fault_of(crate, texts, paths, of_paths(check(crate, texts, paths), paths))


def parts(tried: Iterable[Edit]) -> list[Part]:
    """Edits as they are tried: those of other places than functions alone, which takes longest, and then batches with
    their texts.
    """
    every = list(tried)
    single: list[Part] = [([edit], None) for edit in every if not edit.is_of_functions()]
    return single + list(batches(edit for edit in every if edit.is_of_functions()))


def judged_part(crate: Any, part: Part, lines: Lines) -> list[tuple[Edit, str | None]]:
    """Each edit of a part, and why it isn't refused for its meaning, or None. What a check of a batch doesn't show is
    tried alone.
    """
    batch, texts = part
    if texts is None:
        return [(edit, alone(crate, edit)) for edit in batch]
    said = said_of_batch(crate, batch, texts, lines)
    whys = {edit.name: verdict(said[edit.name]) for edit in batch}
    return [(edit, whys[edit.name] and alone(crate, edit)) for edit in batch]


def judged(crate: Any, tried: Iterable[Edit]) -> Iterator[tuple[Edit, str | None]]:
    """Each edit, and why it isn't refused for its meaning, or None."""
    for part in parts(tried):
        yield from judged_part(crate, part, {})
