"""The proved check of viewdata page bases, over the C library. It needs Python 3.9 or later and nothing else.

    import pageaudit

    policy = pageaudit.Policy(ceiling=50, keyings=3)
    verdict = pageaudit.check(base, cert, policy)
    if verdict.cleared:
        serve(base)
    else:
        print(verdict.line)

`verdict.cleared` is a promise, proved of the bytes that are passed: whatever keys a caller in exactly the policy's
groups presses from the entry page on, no key leads to a frame that is missing or closed, no frame shown costs more than
the ceiling or writes into the service rows, and until the caller leaves the base, at most `keyings` keys lead back to
the entry page.

The library is `libpageaudit.so.1` in the folder that the variable PAGEAUDIT_LIB names. Without that variable it is the
one beside this file, or else the one that ./install put below its prefix together with this file, or else the system's.
If it can't be loaded, the import fails with ImportError. Calls keep nothing, and several threads may make them at once.
"""

from __future__ import annotations

import contextlib
import ctypes
import json
import operator
import os
from collections.abc import Mapping, Sequence
from dataclasses import dataclass, fields
from typing import Any, SupportsIndex

__version__ = "1.2.0"
__all__ = ["Audit", "Finding", "Look", "Policy", "PolicyError", "Screen", "TextError", "Verdict"]
__all__ += ["audit", "change", "check", "lint", "show"]

# What the library answers.
_CLEAR, _FAULTY, _BAD_POLICY, _BAD_TEXT = range(4)
_LINE_ROOM = 128
_CELLS = 960


class PolicyError(ValueError):
    """A ceiling or keyings out of range, or groups out of range or order: see `Policy`."""


class TextError(ValueError):
    """A text at fault; the message is its first fault, as the program prints it."""


@dataclass(frozen=True)
class Policy:
    """What a centre asks of its bases.

    Raises PolicyError, or TypeError, which names the argument, for anything but numbers or a list of them.
    """

    ceiling: int
    """The most that a frame may cost, in pence: 0 to 9,999."""
    keyings: int
    """The most route and next keys that may be needed to regain the entry page: 0 to 65,535."""
    groups: Sequence[int] = ()
    """The callers' closed user groups, ascending: at most 16 of 1 to 65,535."""

    def __post_init__(self) -> None:
        if not isinstance(self.groups, Sequence) or isinstance(self.groups, (str, bytes, bytearray, memoryview)):
            raise TypeError(f"groups has to be a list of whole numbers, not {_kind(self.groups)}")
        object.__setattr__(self, "ceiling", _whole("ceiling", self.ceiling))
        object.__setattr__(self, "keyings", _whole("keyings", self.keyings))
        groups = tuple(_whole(f"groups[{place}]", group) for place, group in enumerate(self.groups))
        object.__setattr__(self, "groups", groups)
        with contextlib.suppress(TextError):  # the library judges a policy before a text, and an empty text is no base
            _call("pageaudit_audit", {"base": b""}, self, _LINE_ROOM)


@dataclass(frozen=True)
class Verdict:
    """What a check says."""

    cleared: bool
    """Whether the promise holds."""
    line: str
    """`CLEARED`, or the first condition that fails."""


@dataclass(frozen=True)
class Audit:
    """What an audit says: a certificate, or faults, of which there is at least one then."""

    certificate: bytes | None
    """A certificate that the check clears; None if there are faults."""
    faults: tuple[str, ...]
    """A line for each fault, with the keys that show it."""


@dataclass(frozen=True)
class Finding:
    """Something that lint found: what `pageaudit lint --format json` prints of it. Lines and columns count from 1."""

    code: str
    """As `X6` or `MISSING`; `pageaudit explain` explains it."""
    level: str
    """`error` or `warning`."""
    file: str
    line: int
    column: int
    end_line: int
    end_column: int
    """The first column after it."""
    frame: str | None
    key: str | None
    """The name of the key in the text, or the key that is pressed."""
    keys: str | None
    """The keys that lead there from the entry page."""
    message: str
    hint: str | None
    fix: dict[str, int | str] | None = None
    """If only one text can have been meant: that `text`, and the span that it replaces, by these four names."""


@dataclass(frozen=True)
class Look:
    """How a cell looks. Colours are 0 black, 1 red, 2 green, 3 yellow, 4 blue, 5 magenta, 6 cyan, 7 white."""

    character: str
    """Of a mosaic, one from U+1FB00 to U+1FB3B, or a half or full block."""
    foreground: int
    background: int
    flash: bool
    concealed: bool
    separated: bool
    """Whether it is a mosaic whose blocks are apart."""
    height: int
    """0 a whole cell, 1 the upper half of one of double height, 2 its lower half."""


@dataclass(frozen=True)
class Screen:
    """A screen's 960 cells: 24 rows of 40, from the top left."""

    codes: bytes
    """What they hold: 20 to 7F, and attributes from 80 to 9F."""
    looks: tuple[Look, ...]


def check(base: bytes, cert: bytes, policy: Policy) -> Verdict:
    """Checks the text of a certificate against the text of a base.

    Raises TextError for the first fault of the base's text, or else of the certificate's; or MemoryError.
    """
    answer, text = _call("pageaudit_check", {"base": base, "cert": cert}, policy, _LINE_ROOM)
    return _verdict(answer, text)


def change(old_base: bytes, old_cert: bytes, new_base: bytes, new_cert: bytes, policy: Policy) -> Verdict:
    """Checks whether a new edition may take an old one's place while callers are inside.

    Raises as `check`; TextError for the first fault of the four texts in their order.
    """
    texts = {"old_base": old_base, "old_cert": old_cert, "new_base": new_base, "new_cert": new_cert}
    answer, text = _call("pageaudit_change", texts, policy, _LINE_ROOM)
    return _verdict(answer, text)


def audit(base: bytes, policy: Policy) -> Audit:
    """Audits the text of a base: its certificate, or every fault.

    Raises TextError for the first fault of the text, or MemoryError.
    """
    answer, text = _call("pageaudit_audit", {"base": base}, policy, 1 << 16)
    if answer == _CLEAR:
        return Audit(text, ())
    return Audit(None, tuple(text.decode("ascii").splitlines()[1:]))


def lint(base: bytes, policy: Policy, file: str = "") -> list[Finding]:
    """Every fault of the text of a base, or else of its audit, and its warnings, in the order of their places.

    `file` is that of each finding. Raises MemoryError. A text that isn't a base is an error among the findings, and no
    TextError.
    """
    _, text = _call("pageaudit_lint_json", {"name": os.fsencode(file), "base": base}, policy, 1 << 16)
    return [_finding(line) for line in text.split(b"\n")[:-1]]


def show(base: bytes, frame: str = "", groups: Sequence[int] = ()) -> Screen | None:
    """The screen of a frame, as a caller in these groups sees it; None if the base lacks it.

    `frame` is an id, as "478a", or a page for its frame a; without it the entry frame is shown. The screen is the one
    that `pageaudit show` shows. Raises TextError for the first fault of the base's text, PolicyError or MemoryError.
    """
    if not isinstance(frame, str):
        raise TypeError(f"frame has to be a str, not {_kind(frame)}")
    words = _words({"base": base, "frame": frame.encode("utf-8"), "groups": _list(Policy(0, 0, groups))})
    codes, line = ctypes.create_string_buffer(_CELLS), ctypes.create_string_buffer(_LINE_ROOM)
    looks, length = (_CellLook * _CELLS)(), ctypes.c_size_t()
    for array, room in (codes, _CELLS), (looks, _CELLS), (line, _LINE_ROOM):
        words += [array, ctypes.c_size_t(room)]
    answer = _function("pageaudit_show")(*words, ctypes.byref(length))
    _checked(answer, line.raw[: length.value])
    return Screen(codes.raw, tuple(map(_look, looks))) if answer == _CLEAR else None


class _CellLook(ctypes.Structure):
    """struct pageaudit_look."""

    character: int
    foreground: int
    background: int
    flash: int
    concealed: int
    separated: int
    height: int
    _fields_ = [("character", ctypes.c_uint32)] + [
        (name, ctypes.c_uint8) for name in ("foreground", "background", "flash", "concealed", "separated", "height")
    ]


def _look(it: _CellLook) -> Look:
    flags = bool(it.flash), bool(it.concealed), bool(it.separated)
    return Look(chr(it.character), it.foreground, it.background, *flags, it.height)


def _verdict(answer: int, text: bytes) -> Verdict:
    return Verdict(answer == _CLEAR, text.decode("ascii").rstrip("\n"))


def _finding(line: bytes) -> Finding:
    """A finding of an object of JSON, which may have more keys in later versions of the library."""
    found = json.loads(line)
    return Finding(**{field.name: found[field.name] for field in fields(Finding)})


_FILE = "libpageaudit.so.1"
# Where ./install puts this file below its prefix.
_PLACE = os.path.join(os.sep, "share", "doc", "pageaudit", "examples", "python")


def _own_folders() -> list[str]:
    """The folders that may have the library of this file's installation."""
    here = os.path.dirname(os.path.realpath(__file__))
    return [here, os.path.join(here[: -len(_PLACE)], "lib")] if here.endswith(_PLACE) else [here]


def _load() -> ctypes.CDLL:
    named = os.environ.get("PAGEAUDIT_LIB")
    folders = [named] if named else _own_folders()
    paths = [os.path.join(folder, _FILE) for folder in folders]
    path = next(filter(os.path.exists, paths), paths[0] if named else _FILE)
    try:
        return ctypes.CDLL(path)
    except OSError as fault:
        looked = " and ".join(folders if named else [*folders, "the system's folders"])
        raise ImportError(f"{fault}: looked in {looked}; set PAGEAUDIT_LIB to the folder that has {_FILE}") from fault


_LIBRARY = _load()


def _kind(value: object) -> str:
    return type(value).__name__


def _whole(name: str, value: object) -> int:
    """The whole number that an argument is. True and False aren't."""
    if isinstance(value, bool) or not isinstance(value, SupportsIndex):
        raise TypeError(f"{name} has to be a whole number, not {_kind(value)}")
    return operator.index(value)


def _number(name: str, value: int) -> ctypes.c_uint32:
    """A number as the library takes it; ctypes alone would cut it to 32 bits."""
    if not 0 <= value < 1 << 32:
        raise PolicyError(f"{name} is out of range")
    return ctypes.c_uint32(value)


def _slice(name: str, text: bytes) -> tuple[ctypes.c_char_p, ctypes.c_size_t]:
    """A text's address and length."""
    if not isinstance(text, bytes):
        raise TypeError(f"{name} has to be bytes, not {_kind(text)}")
    return ctypes.c_char_p(text), ctypes.c_size_t(len(text))


def _words(texts: Mapping[str, bytes]) -> list[Any]:
    """Texts as the library takes them."""
    return [word for text in texts.items() for word in _slice(*text)]


def _list(policy: Policy) -> bytes:
    """The groups of a policy as the library takes them."""
    return ",".join(map(str, policy.groups)).encode("ascii")


def _policy_words(policy: Policy) -> list[Any]:
    """A policy as the library takes it."""
    if not isinstance(policy, Policy):
        raise TypeError(f"policy has to be a Policy, not {_kind(policy)}")
    return [_number("ceiling", policy.ceiling), _number("keyings", policy.keyings), *_slice("groups", _list(policy))]


def _function(name: str) -> Any:
    """A function of the library, which answers a status."""
    function = _LIBRARY[name]
    function.restype = ctypes.c_uint32
    return function


def _call(name: str, texts: Mapping[str, bytes], policy: Policy, room: int) -> tuple[int, bytes]:
    """The status of a call and what it printed; raises for each other status."""
    words, function, length = _words(texts) + _policy_words(policy), _function(name), ctypes.c_size_t(room)
    while True:
        room = length.value
        buffer = ctypes.create_string_buffer(room)
        answer = function(*words, buffer, ctypes.c_size_t(room), ctypes.byref(length))
        if length.value <= room:
            return answer, _checked(answer, buffer.raw[: length.value])


def _checked(answer: int, text: bytes) -> bytes:
    if answer in (_CLEAR, _FAULTY):
        return text
    if answer == _BAD_POLICY:
        raise PolicyError(
            "ceiling is 0 to 9,999, keyings 0 to 65,535, and groups are at most 16 numbers, ascending, 1 to 65,535"
        )
    if answer == _BAD_TEXT:
        raise TextError(text.decode("ascii").rstrip("\n"))
    raise MemoryError("the library was refused memory")
