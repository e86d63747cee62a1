"""Which definitions of specs/ promises reach, and so which ones specs/Loops has to hold: tests/contracts judges that.

A promise is a clause of an exported function, or what is said of an exported type or by an exported trait (its ghost
members). It reaches what it names and what that names in turn, in any crate. A name is looked up by the imports of its
file. What is said of a type that isn't exported may be in Loops or not. The crate `promises` exports nothing: all its
clauses are promises. No crate can use a static library, so crates/promises/calls has the clauses of the calls for C,
and the definitions of their own that these reach.
"""

import itertools
import re
from collections.abc import Iterable, Iterator
from functools import cache
from pathlib import Path

from harness.edits import CRATES, Function, exported, functions

# The crate that states each promise again, and the calls for C, which it can't use.
CLIENT = "promises"
CALLS = "pageaudit_c"

# Where a definition begins: a name and its type, or a record, or data. A module with parameters has its own further in.
HEAD = re.compile(r"(?: *(?:abbrev|unfoldable) )?(?:pub )?(?:◌(\S+)◌|([\w'-]+)) : |(?:pub )?(?:record|data) (\w+)")
USE = re.compile(r"^ *(?:pub |ghost )?use Rattle\.([\w.]+?)(?:\.\{([^}]*)\}| as (\w+));?$", re.M)
# A name, and one that is taken from it; or an operator.
WORD = re.compile(r"(?<![\w.])([^\W\d][\w'-]*)(?:\.([^\W\d][\w'-]*))?|([^\w\s(){}.,;]+)")
GHOST = re.compile(r"\bghost \w+(?: =|:) \{(.*?)\}[;,]\n", re.S)


def clauses(path: Path, function: Function) -> str:
    """The text of a function's clauses."""
    lines = path.read_text("utf-8").split("\n")[function.begin : function.end]
    header = itertools.takewhile(lambda line: line.strip() not in ("{", "{}", "}"), lines)
    return " ".join(re.split(r"\b(?:requires|ensures)\b", " ".join(line.partition("//")[0] for line in header))[1:])


def said(crate: str) -> Iterator[tuple[Path, str, bool]]:
    """Each file of a crate with a text of what a function, a type or a trait promises, and whether that is exported."""
    names = exported(crate)
    is_client = crate == CLIENT
    for path in sorted((CRATES / crate / "src").rglob("*.rt")):
        text = path.read_text("utf-8")
        traits = set(re.findall(r"^pub trait (\w+)", text, re.M))
        for function in functions(path):
            if is_client or function.is_exported(names) or function.owner in traits & names:
                yield path, clauses(path, function), True
        for item in re.split(r"^(?=(?:pub )?(?:struct|enum|trait|impl)\b)", text, flags=re.M):
            is_exported = not names.isdisjoint(re.findall(r"\w+", item.partition("\n")[0]))
            yield from ((path, member, is_exported) for member in GHOST.findall(item))


@cache
def definitions(path: Path) -> dict[str, str]:
    """The definitions of a file by their names, each with its text up to the next one."""
    found: dict[str, str] = {}
    name = ""
    for line in path.read_text("utf-8").split("\n"):
        if not line.lstrip().startswith(("--", "use ", "pub mod ", "infix")):
            head = HEAD.match(line)
            name = head[1] or head[2] or head[3] if head else name
            found[name] = f"{found.get(name, '')}{line}\n"
    return {name: text for name, text in found.items() if name}


@cache
def definers(path: Path) -> dict[str, str]:
    """The definition that gives each name of a file: the one of this name, or the data whose constructor it is."""
    names = {name: name for name in definitions(path)}
    for name, text in definitions(path).items():
        if re.match(r"(pub )?data ", text):
            names |= {one: name for one in re.findall(r"^  ([\w'-]+) : ", text, re.M)}
    return names


# The file and the name in it that a name means; a file alone has none.
Meaning = tuple[Path | None, str | None]


@cache
def known(path: Path) -> dict[str, Meaning]:
    """What each name in a file means: a name of a file, its own or another, or a file alone."""
    names: dict[str, Meaning] = {name: (path, name) for name in definers(path)} if path.suffix == ".antt" else {}
    for module, listed, alias in USE.findall(path.read_text("utf-8")):
        file = CRATES / (module.replace(".", "/") + ".antt")
        if alias:
            names[alias] = file, None
        for name, _, shown in (one.strip().partition(" as ") for one in listed.split(",")):
            names[(shown or name).strip("◌")] = file, name.strip("◌")
    return names


def named(path: Path, text: str) -> Iterator[tuple[Path, str]]:
    """The definitions that a text of a file names."""
    for word, member, operator in WORD.findall(text):
        file, name = known(path).get(">>=" if word == "do" else word or operator, (None, None))
        if file and file.exists() and (name or member) in definers(file):
            yield file, definers(file)[name or member]


def reached(texts: Iterable[tuple[Path, str]]) -> set[tuple[Path, str]]:
    """The definitions that texts of files name, and those that these name in turn."""
    found: set[tuple[Path, str]] = set()
    todo = list(texts)
    while todo:
        new = set(named(*todo.pop())) - found
        found |= new
        todo += [(file, definitions(file)[name]) for file, name in new]
    return found


def call_promises() -> list[str]:
    """The promises of the calls for C: a line for each clause, and then each definition of theirs that these reach."""
    texts: list[tuple[Path, str]] = []
    lines: list[str] = []
    for path in sorted((CRATES / CALLS / "src").glob("*.rt")):
        for function in (one for one in functions(path) if one.is_pub and one.name in exported(CALLS)):
            texts.append((path, clauses(path, function)))
            lines += [f"{function.name} {label or 'ensures'}: {text}" for label, text in function.clauses]
    own = sorted((file, name) for file, name in reached(texts) if file.is_relative_to(CRATES / CALLS))
    return lines + [definitions(file)[name].strip() for file, name in own]


def call_faults() -> Iterator[str | None]:
    """For each promise of the calls for C what is wrong, or None: it is lacking where it is kept, or says something
    else there.
    """
    kept = (CRATES / CLIENT / "calls").read_text("utf-8").rstrip("\n").split("\n\n")[1:]
    now = call_promises()
    yield from (None if one in now else f"{CALLS} doesn't promise any more: {one}" for one in kept)
    yield from (None if one in kept else f"crates/{CLIENT}/calls lacks: {one}" for one in now)


def storeys(crates: list[str]) -> Iterator[str | None]:
    """For each definition of some crates what is wrong with where it is, or None. A file of laws holds the lemmas of
    its laws.
    """
    every = [one for crate in crates for one in said(crate)]
    meant = reached((path, text) for path, text, _ in every)
    promised = reached((path, text) for path, text, is_exported in every if is_exported)
    for crate in crates:
        specs = CRATES / crate / "specs"
        for path in sorted(specs.rglob("*.antt")):
            file = path.relative_to(specs).with_suffix("")
            for name in definitions(path):
                if file.parts[0] == "Loops":
                    yield f"{crate}: a promise rests on {name} of specs/{file}" if (path, name) in promised else None
                elif "Laws" not in file.name:
                    yield None if (path, name) in meant else f"{crate}: no promise reaches {name} of specs/{file}"
