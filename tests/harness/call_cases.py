"""The calls that take memory, each on inputs whose answers are known: what tests/refuse-calls refuses memory to.

The answers of the small inputs are worked by hand from the rules; those of the large ones are the second reading's. A
line of tests/data/call-cases has the words of a call and its answer, and one of tests/data/call-runs a run's status,
its words before and after the output, and what it writes; `$NAME` is a text that has a name here. The files are in
tests/data/calls.toml.
"""

import tomllib
from collections.abc import Iterable, Iterator, Mapping
from dataclasses import dataclass
from functools import cache
from pathlib import Path

from harness.places import TOP
from harness.running import program, scratch
from second_reading import audit, session
from second_reading.base import Asked, Base, FrameId, Groups, keys_in
from second_reading.faults import base_of
from second_reading.map import View, draw
from second_reading.saved import file_of
from second_reading.screens import sent

DATA = TOP / "tests" / "data"
DEMO = (TOP / "examples" / "demo.toml").read_text("ascii")
CERT = (TOP / "examples" / "demo.cert").read_text("ascii")
MEMORY = "memory refused\n"
FAILED = "Err(Failed)\n" * 3 + "Some(Failed)\n"


@dataclass
class Case:
    """A call with its words, its answer if no memory is refused, and one beside MEMORY that it may give if memory is
    refused.
    """

    words: str
    answer: str
    memory: str = MEMORY
    is_large: bool = False

    @property
    def call(self) -> str:
        return self.words.split(" ")[0]


def changed(text: str, changes: Iterable[tuple[str, str]]) -> str:
    """The text with each part replaced by another; a part has to be there once."""
    for old, new in changes:
        assert text.count(old) == 1, old
        text = text.replace(old, new)
    return text


def line_of(number: int, line: str) -> str:
    """The certificate with another line, counted from 1, in the place of one."""
    lines = CERT.splitlines()
    lines[number - 1] = line
    return "\n".join(lines) + "\n"


TABLES = tomllib.loads((DATA / "calls.toml").read_text("ascii"))
TEXTS = {name: text.removeprefix("\n") for name, text in TABLES["texts"].items()}
FAULTS: dict[str, str] = TABLES["faults"]
BASES = {"no_entry": "entry = 0\n"} | {name: changed(DEMO, changes) for name, changes in TABLES["bases"].items()}
CERTIFICATES = {name: changed(CERT, changes) for name, changes in TABLES["certificates"].items()}
# Those at fault by their faults; LONG is one byte more than a body may have.
BAD_BASES: dict[str, str] = {
    one["fault"]: one["text"] if "text" in one else changed(DEMO, one["changes"]).replace("LONG", "A" * 4_097)
    for one in TABLES["bad_bases"]
}
BAD_CERTS = {fault: line_of(*change) for fault, change in TABLES["bad_certificates"].items()}
BAD_CERTS["line 10: Tail"] = CERT + "X"
MAP = draw(DEMO.encode(), Asked()).stdout


def debug_id(id: str) -> str:
    """An id as `{:?}` prints it."""
    return f"FrameId {{ page: PageNo {{ number: {id[:-1]} }}, letter: Letter {{ byte: {ord(id[-1])} }} }}"


def debug_option(text: object) -> str:
    return "None" if text is None else f"Some({text})"


def debug_found(frames: Iterable[tuple[str, int | None, int | None, str | None]]) -> str:
    """The discovered frames as `{:?}` prints them: of each its id, its rank, its parent's place and the key pressed
    there.
    """
    keys = {None: None, "#": "Next"} | {str(digit): f"Route(Digit {{ number: {digit} }})" for digit in range(10)}
    texts = [
        f"Discovered {{ id: {debug_id(id)}, rank: {debug_option(rank)}, "
        f"parent: {debug_option(parent)}, key: {debug_option(keys[key])} }}"
        for id, rank, parent, key in frames
    ]
    return f"Found {{ frames: [{', '.join(texts)}] }}\n"


def debug_replayed(last: str, at: str | None) -> str:
    return f"Ok(Replayed {{ last: {last}, at: {debug_option(at and debug_id(at))} }})\n"


def debug_shown(id: str, pence: int) -> str:
    return f"Shown({debug_id(id)}, Pence {{ number: {pence} }})"


def base_cases() -> Iterator[Case]:
    yield base_case("demo", CERT)
    for name in ("no_entry", "closed", "missing", "no_return", "touches", "entry_closed"):
        yield base_case(name, audit.audit(BASES[name].encode(), Asked()).stdout)
    for place, fault in enumerate(BAD_BASES):
        yield base_case(f"bad_base_{place}", f"base: {fault}\n")
        yield Case(f"check_bytes bad_base_{place} cert 5 1 -", f"base: {fault}\n")


def base_case(name: str, answer: str) -> Case:
    """A base that is read, and its audit with the greatest policy for callers of no group."""
    return Case(f"base_read {name} 9999 65535 -", answer, "base: memory refused\n")


def cert_cases() -> Iterator[Case]:
    for name in "cert", "grouped":
        text = CERTIFICATES[name]
        yield Case(f"cert_read {name}", text)
        for piece in 1, 2, 3, 7, 4_096:
            yield Case(f"feed {name} {piece}", text, MEMORY + FAILED)
    for place, fault in enumerate(BAD_CERTS):
        line = f"certificate: {fault}\n"
        yield Case(f"cert_read bad_cert_{place}", line)
        yield Case(f"check_bytes demo bad_cert_{place} 5 1 -", line)
        for piece in 1, 4_096:
            yield Case(f"feed bad_cert_{place} {piece}", line + FAILED, MEMORY + FAILED)
    yield Case("cert_read truncated", "certificate: line 9: Truncated\n")
    yield Case("feed truncated 7", "certificate: line 9: Truncated\n", MEMORY + FAILED)


def session_cases() -> Iterator[Case]:
    def replay(words: str, last: str, at: str | None) -> Case:
        return Case(f"replay {words}", debug_replayed(last, at), "Err(Memory)\n")

    yield replay("closed - 1#", f"Closed({debug_id('1231b')})", "1231a")
    yield replay("closed 7 1#", debug_shown("1231b", 0), "1231b")
    yield replay("demo - 0", "Gone(PageNo { number: 0 })", None)
    yield replay("demo - ", debug_shown("123a", 0), "123a")
    yield Case("replay no_entry - 1", "Err(EntryMissing)\n")


def audit_cases() -> Iterator[Case]:
    for name, rank in ("demo", 1), ("no_return", None):
        ids = [("123a", 0, None, None), ("1231a", 1, 0, "1"), ("1231b", rank, 1, "#")]
        yield Case(f"find {name} -", debug_found(ids))
    yield Case("find no_entry -", debug_found([]))
    yield Case("nearest demo 1321a", f"Some({debug_id('1231a')})\n")
    for call in "audit", "faults":
        yield Case(f"{call} demo 4 0 -", TEXTS["STRICT"])
        for name, faults in FAULTS.items():
            yield Case(f"{call} {name} 50 3 -", faults)


def ran(status: int, text: str = "", fault: str = "") -> str:
    """What a run answers: its fault's line, its status, and what it wrote."""
    return f"{fault and fault + chr(10)}status {status}\n{text}"


UNWRITTEN = "output: write failed after {} bytes"
# The entry frame's codes, and the text of frame 1231b, which is painted over 1231a.
CELLS = f"{'123a':>35}{'0p':>5}{'WELCOME':<920}"
SHOWN = f"{'1231b':>35}{'0p':>5}\nPART TWO" + "\n" * 23
PART_TWO = f"{'1231b':>35}{'0p':>5}{'PART TWO':<920}"
# A saved screen, as a dump and as TTI, what a centre sent, and the base of each.
SCREEN = f"{'THE HERALD':<28}{'478a':>7}{'0p':>5}{'1 News':<920}"
SHEET = file_of("tti", FrameId(478, "a"), SCREEN.encode()).decode()
STREAM = "\x0c\x1e\x0a1 News"
SCREEN_BASE = TEXTS["SCREEN_BASE"]


@cache
def page(*words: str) -> str:
    """The example's HTML file, as the program writes it: tests/html-sections judges it."""
    with scratch() as folder:
        (folder / "base.toml").write_text(DEMO, "ascii")
        return program(
            "show", "base.toml", "--as", "html", "--ceiling", "50", "--keyings", "3", *words, cwd=folder
        ).stdout


@cache
def texts() -> dict[str, str]:
    """The texts of the answers that have names."""
    pages = {"PAGE": page(), "PAGE_1231": page("--page", "1231")}
    maps = {"MAP": MAP, "MAP_1231": draw(DEMO.encode(), Asked(), View("page", 1_231)).stdout}
    shown = {"CELLS": CELLS, "SHOWN": SHOWN}
    saved = {"LINK_123A": (123, "a", CELLS), "LINK_1231B": (1_231, "b", PART_TWO), "LINK_5A": (5, "a", " " * 960)}
    links = {
        name: file_of("link", FrameId(page, letter), cells.encode()).decode()
        for name, (page, letter, cells) in saved.items()
    }
    return TEXTS | {"CERT": CERT, "GROUPED": CERTIFICATES["grouped"]} | pages | maps | shown | links


def lines_in(name: str) -> Iterator[list[str]]:
    """The columns of each line of a file; the last one is a text."""
    for line in (DATA / name).read_text("ascii").splitlines():
        *columns, text = line.split(" | ")
        yield [*columns, texts()[text[1:]] if text.startswith("$") else text.replace("\\n", "\n")]


def fixed_cases() -> Iterator[Case]:
    for words, answer in lines_in("call-cases"):
        yield Case(words, answer)


def run_cases() -> Iterator[Case]:
    for status, front, after, text in lines_in("call-runs"):
        for piece in 1, 7, 4_096:
            yield Case(f"{front.format(piece)} whole {after}", ran(int(status), text))
        for room in {0, 1, len(text) - 1} if text else ():
            for output in "full", "stalling":
                yield Case(f"{front.format(7)} {output}/{room} {after}", ran(3, text[:room], UNWRITTEN.format(room)))
        yield Case(f"{front.format(7)} unflushed {after}", ran(3, text, UNWRITTEN.format(len(text))))


def unread_cases() -> Iterator[Case]:
    """Files that fail after some bytes; the base is cut at other places than the certificate."""
    for words, file in TABLES["unread"].items():
        for kept in (0, 40, len(CERT)) if "certificate" in file else (0, 100, len(DEMO)):
            yield Case(words.format(kept), ran(3, fault=f"{file}: read failed"))


# The large base: pages in a tree of nine routes down and one up, every seventh with a second frame, every hundredth in
# group 7.
PAGES = 4_000
BODIES = ['rows = ["FIRST", "", "THIRD"]', 'body = "SHORT"', "rows = []", 'lead = "keep"\nbody = "\\u001E\\u000AKEPT"']


def large_frame(page: int, letter: str, routes: Iterable[tuple[int, int]], page_fields: Iterable[str]) -> str:
    lines = ["[[frame]]", f'id = "{page}{letter}"', *page_fields]
    lines.append("routes = { " + ", ".join(f"{digit} = {to}" for digit, to in routes) + " }")
    return "\n".join(lines) + "\n"


def large_base() -> str:
    texts = ["entry = 100000\noutside = [5]\n"]
    for number in range(PAGES):
        page, up = 100_000 + number, 100_000 + max(number - 1, 0) // 9
        down = [(digit, 100_000 + 9 * number + digit) for digit in range(1, 10) if 9 * number + digit < PAGES]
        fields = [f"price = {number % 10}", BODIES[number % len(BODIES)]]
        if number % 100 == 99:
            fields.append("group = 7")
        if number % 7 == 3:
            texts.append(large_frame(page, "b", [(0, up), (9, 5)], fields))
            fields.append("next = true")
        texts.append(large_frame(page, "a", [(0, up), *down], fields))
    return "".join(texts)


def found(whole: Base, groups: Groups) -> Iterator[tuple[str, int | None, int | None, str | None]]:
    """Of each discovered frame its id, its rank, its parent's place and the key pressed there."""
    scripts = audit.discover(whole, groups)
    ranks = audit.ranks_of(whole, scripts)
    places = {script: place for place, script in enumerate(scripts.values())}
    for id, script in scripts.items():
        parent, key = (places[script[:-1]], script[-1]) if script else (None, None)
        yield str(id), ranks.get(id), parent, key


def large_files() -> dict[str, str]:
    text = large_base()
    status, cert, _ = audit.audit(text.encode(), Asked(9, 9, "7"))
    assert status == 0
    return {"large": text, "large_cert": cert, "large_tail": cert + "X", "large_bad": text + "unknown = 1\n"}


def large_cases(files: Mapping[str, str]) -> Iterator[Case]:
    text, cert = files["large"], files["large_cert"]
    whole = base_of(text.encode())
    scripts = audit.discover(whole, (7,))
    deepest, script = list(scripts.items())[-1]
    way = "".join(f"{id}\n" for id in sent(whole, (7,), keys_in(script)))
    faults = audit.audit(text.encode(), Asked(4, 2)).stdout
    tail = f"certificate: line {cert.count(chr(10)) + 1}: Tail\n"
    unknown = f"base: frame {text.count('[[frame]]') - 1}: X3 UnknownKey\n"
    keys = "10" * 2_000
    yield from [
        Case(f"keys_read {keys}", keys),
        base_case("large", audit.audit(text.encode(), Asked()).stdout),
        base_case("large_bad", unknown),
        Case("body_of_rows" + f" {'W' * 40}" * 22, f"Body {{ bytes: {[30, 10, *b'W' * 880]} }}\n"),
        Case(f"replay large - {keys}", debug_replayed(debug_shown("100000a", 0), "100000a"), "Err(Memory)\n"),
        Case("run_walk large 4096  whole -", ran(0, "SHOWN 100000a 0\n")),
        Case(f"run_walk large 4096 {keys} whole -", ran(0, session.walk(text.encode(), keys, Asked()).stdout)),
        Case("run_audit large 4096 whole 9 9 7", ran(0, cert)),
        Case("cert_read large_cert", cert),
        Case("cert_read large_tail", tail),
        Case("feed large_cert 4096", cert, MEMORY + FAILED),
        Case("feed large_tail 4096", tail + FAILED, MEMORY + FAILED),
        Case("check_bytes large large_cert 9 9 7", "CLEARED\n"),
        Case("check_bytes large large_tail 9 9 7", tail),
        Case("check_bytes large_bad large_cert 9 9 7", unknown),
        Case("find large 7", debug_found(found(whole, (7,)))),
        Case("find large -", debug_found(found(whole, ()))),
        Case(f"script_to large 7 {len(scripts) - 1}", script),
        Case(f"way_to large 7 {deepest}", way),
        Case("run_show large 4096 100000b cells whole -", ran(2)),
        Case("audit large 9 9 7", cert),
        Case("audit large 4 2 -", faults),
        Case("faults large 4 2 -", faults),
    ]


def small_files() -> dict[str, str]:
    bad_bases = {f"bad_base_{place}": text for place, text in enumerate(BAD_BASES.values())}
    bad_certs = {f"bad_cert_{place}": text for place, text in enumerate(BAD_CERTS.values())}
    others = {"truncated": CERT[:80], "screen": SCREEN, "sheet": SHEET, "stream": STREAM}
    return BASES | CERTIFICATES | bad_bases | bad_certs | others


def cases(folder: Path) -> Iterator[Case]:
    """Writes the files into the folder; each case."""
    large = large_files()
    for name, text in {**small_files(), **large}.items():
        (folder / name).write_text(text, "ascii")
    for part in fixed_cases, base_cases, cert_cases, session_cases, audit_cases, run_cases, unread_cases:
        yield from part()
    for case in large_cases(large):
        case.is_large = True
        yield case
