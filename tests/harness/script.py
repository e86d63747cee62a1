"""A script's `main`: it reads the words, runs the cases, and ends with the last line and the status."""

import argparse
import inspect
import io
import json
import os
import sys
from collections.abc import Callable, Iterable, Mapping
from dataclasses import asdict, dataclass
from functools import partial
from pathlib import Path
from typing import Any, NoReturn

from harness.places import TOP
from harness.results import Counts, Test

Case = Callable[..., None]
Files = Callable[[], Iterable[tuple[Path, str | bytes]]]


@dataclass(frozen=True)
class About:
    """What a script says of itself to tests/must-fail-scripts, by --about."""

    program: bool = True
    """Whether it judges what the program answers."""
    partly: bool = False
    """Whether some of its results don't depend on the program."""
    calls: bool = False
    """Whether it needs the program of the calls, crates/run_bench."""
    clears: bool = True
    """Whether it runs a command to which the wrong program that clears all gives a wrong answer."""
    short: tuple[str, ...] = ()
    """The words that keep it short."""
    only: str = ""
    """The word of the runs that print another letter; without one all do."""


def cases_of(script: Mapping[str, Any]) -> dict[str, Case]:
    """The public functions of a script whose first parameter is `test`, by their names."""
    found: dict[str, Case] = {}
    for name, one in script.items():
        if inspect.isfunction(one) and one.__module__ == script["__name__"] and not name.startswith("_"):
            if next(iter(inspect.signature(one).parameters), "") == "test":
                found[name] = one
    return found


def chosen(cases: Mapping[str, Case], word: str) -> dict[str, Case]:
    """The cases of this name, or of whose names it is a part, as in 'PAGE: HEADING'."""
    return {name: case for name, case in cases.items() if word in (name, *name.split(": "))}


def some_of(cases: Mapping[str, Case], words: list[str], parser: argparse.ArgumentParser) -> Mapping[str, Case]:
    """The cases that words choose, each of which has to choose one; without words all."""
    if unknown := [word for word in words if not chosen(cases, word)]:
        parser.error(f"no case is called {' or '.join(unknown)}")
    return {name: case for word in words for name, case in chosen(cases, word).items()} or cases


def parser_of(script: Mapping[str, Any], cases: Iterable[str], count: int, has_files: bool) -> argparse.ArgumentParser:
    parser = argparse.ArgumentParser(
        description=script["__doc__"],
        epilog=f"cases: {', '.join(cases)}",
        formatter_class=argparse.RawDescriptionHelpFormatter,
    )
    parser.add_argument("names", nargs="*", metavar="CASE", help="run these cases alone")
    parser.add_argument("--about", action="store_true", help="print what tests/must-fail-scripts has to know")
    if count:
        parser.add_argument("--count", type=int, default=count, help="how many random things are tried (%(default)s)")
        parser.add_argument("--seed", type=int, default=1, help="which random things (%(default)s)")
    if has_files:
        parser.add_argument("--write", action="store_true", help="write the files that are compared")
    return parser


def compare(files: Files, test: Test, *_: object) -> None:
    """Compares each generated file with the one that is there, or with --write writes it first."""
    for path, text in files():
        data = text.encode() if isinstance(text, str) else text
        if test.options.write:
            path.parent.mkdir(parents=True, exist_ok=True)
            path.write_bytes(data)
        is_there = path.is_file() and path.read_bytes() == data
        test.check(is_there, f"{path.relative_to(TOP)} isn't what {os.path.relpath(sys.argv[0], TOP)} --write writes")


def print_any() -> None:
    """Has print take any text, also of bytes that are no UTF-8."""
    if isinstance(sys.stdout, io.TextIOWrapper):
        sys.stdout.reconfigure(errors="backslashreplace")


def main(
    script: Mapping[str, Any],
    *,
    cases: Mapping[str, Case] | None = None,
    given: Callable[[Test], tuple[Any, ...]] = lambda test: (),
    about: About = About(),
    count: int = 0,
    options: Callable[[argparse.ArgumentParser], object] = lambda parser: None,
    files: Files | None = None,
    whole: bool = False,
    at_once: int = 1,
) -> NoReturn:
    """Runs the cases of a script, its globals() with its docstring, or others by their names.

    Each case is given the test, and what `given` gives for it. `count` is the default of --count, `options` adds words
    of its own, `files` are compared, and with --write written. A whole case has one result. `at_once` run side by side;
    0 is one a processor.
    """
    print_any()
    every = dict(cases if cases is not None else cases_of(script))
    if files:
        every["files"] = partial(compare, files)
    parser = parser_of(script, every, count, files is not None)
    options(parser)
    words = parser.parse_args()
    if words.about:
        print(json.dumps(asdict(about)))
        sys.exit(0)
    some = some_of(every, words.names, parser)
    test = Test(options=words)

    def judge(inner: Test, name: str) -> None:
        inner.case(name, lambda one: some[name](one, *given(one)), whole)

    if at_once == 1:
        for name in some:
            judge(test, name)
    else:
        test.each(some, judge, at_once or None)
    print(test.counts)
    sys.exit(test.counts.failed != 0 or test.counts == Counts())
