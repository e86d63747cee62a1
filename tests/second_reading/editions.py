"""A folder of editions: what `editions --verify` finds in it."""

import hashlib
import re
from dataclasses import dataclass
from pathlib import Path
from typing import NamedTuple

from .base import MOST_GROUP, MOST_GROUPS, Answer, Groups, Policy, Refused, lines_text
from .certificate import certificate_of, refusal
from .change import Edition, change_refusal
from .faults import base_of, tree_in
from .toml import Table, is_integer

SUMMED = ("base.toml", "base.cert", "policy.toml", "follows")
NUMBER_LINE = re.compile(rb"(0|[1-9][0-9]{0,8})\n")
MOST_PRICE = 9_999
MOST_KEYINGS = 65_535
MOST_POLICY_BYTES = 65_536
OTHER_SUM = "it was changed: its sum isn't the one in SHA256SUMS"


class Wrong(Exception):
    """What is wrong with an edition."""


@dataclass
class Kept:
    """An edition whose five files read."""

    texts: dict[str, bytes]
    edition: Edition
    policy: Policy
    follows: int | None

    def has_sums(self) -> str | None:
        """The first file whose sum is another; SHA256SUMS, if it isn't four sums."""
        right = [f"{hashlib.sha256(self.texts[name]).hexdigest()}  {name}".encode() for name in SUMMED]
        found = self.texts["SHA256SUMS"]
        if found == b"".join(line + b"\n" for line in right):
            return None
        lines = found.split(b"\n")[:-1]
        for name, line, sum_line in zip(SUMMED, lines, right, strict=False):
            if not re.fullmatch(rb"[0-9A-Fa-f]{64}  " + re.escape(name.encode()), line):
                return "SHA256SUMS"
            if line != sum_line:
                return name
        return "SHA256SUMS"


def limit_in(tree: Table, key: str, most: int) -> int:
    """The number of a key; Refused if it isn't one within the limit."""
    value = tree.get(key)
    if not is_integer(value) or not 0 <= value <= most:
        raise Refused("policy")
    return value


def groups_of(value: object) -> Groups:
    """The groups of a list; Refused unless they ascend within their limits."""
    items = value if isinstance(value, list) else [0]
    groups = [item for item in items if is_integer(item) and 1 <= item <= MOST_GROUP]
    if len(items) > MOST_GROUPS or sorted({*groups}) != items:
        raise Refused("policy")
    return tuple(groups)


def policy_of(text: bytes) -> Policy:
    """The policy of a text; Refused if it is none."""
    tree = None if len(text) > MOST_POLICY_BYTES else tree_in(text)
    if tree is None or not tree.keys() <= {"ceiling", "keyings", "groups"}:
        raise Refused("policy")
    ceiling, keyings = limit_in(tree, "ceiling", MOST_PRICE), limit_in(tree, "keyings", MOST_KEYINGS)
    return Policy(ceiling, keyings, groups_of(tree.get("groups", [])))


def number_in(text: bytes) -> int:
    """The number of a line; Refused if the text is anything else."""
    if not (found := NUMBER_LINE.fullmatch(text)):
        raise Refused("number")
    return int(found[1])


class Judged(NamedTuple):
    """An edition, whether it is right, what it then follows, and what is said of it."""

    number: int
    is_right: bool
    follows: int | None = None
    said: str | None = None


@dataclass
class FolderReading:
    """A folder, the path by which it is named, and the numbers of its editions."""

    live: Path
    name: str
    numbers: list[int]

    def kept(self, number: int) -> Kept:
        """The edition of a number; Wrong with the first file that is missing or doesn't read."""
        texts: dict[str, bytes] = {}

        def read(name: str) -> bytes:
            path = self.live / "editions" / str(number) / name
            if not path.is_file():
                raise Wrong(f"{self.name}/editions/{number}/{name}: no such file")
            texts[name] = path.read_bytes()
            return texts[name]

        name = ""
        try:
            base = base_of(read(name := "base.toml"))
            certificate = certificate_of(read(name := "base.cert"))
            policy = policy_of(read(name := "policy.toml"))
            said = read(name := "follows")
            follows = None if said == b"-\n" else number_in(said)
        except Refused:
            raise Wrong(f"{self.name}/editions/{number}/{name}: it isn't what was published") from None
        read("SHA256SUMS")
        return Kept(texts, Edition(base, certificate), policy, follows)

    def judge_own(self, number: int, kept: Kept) -> None:
        path = f"{self.name}/editions/{number}"
        if other := kept.has_sums():
            words = "it lacks the sums of the other four files" if other == "SHA256SUMS" else OTHER_SUM
            raise Wrong(f"{path}/{other}: {words}")
        if fault := refusal(*kept.edition, kept.policy):
            raise Wrong(f"{path}/base.cert: REFUSED {fault}")

    def judge_change(self, number: int, kept: Kept, follows: int) -> None:
        """Whether it may follow the edition of that number."""
        said = f"edition {number} follows {follows}"
        if follows >= number:
            raise Wrong(f"{said}, which isn't before it")
        if follows not in self.numbers:
            raise Wrong(f"{said}, which isn't there")
        try:
            old = self.kept(follows)
        except Wrong:
            raise Wrong(f"{said}, which isn't what was published") from None
        if old.policy.groups != kept.policy.groups:
            raise Wrong(f"{said}, and its policy has other groups")
        ceiling = max(old.policy.ceiling, kept.policy.ceiling)
        keyings = max(old.policy.keyings, kept.policy.keyings)
        if fault := change_refusal(old.edition, kept.edition, Policy(ceiling, keyings, kept.policy.groups)):
            raise Wrong(f"{said}: {fault}")

    def judge(self, number: int, served: int | None) -> Judged:
        try:
            kept = self.kept(number)
            self.judge_own(number, kept)
            if (follows := kept.follows) is None:
                return Judged(number, True)
            self.judge_change(number, kept, follows)
        except Wrong as wrong:
            return Judged(number, False, None, str(wrong))
        said = f"edition {number} follows {follows}"
        if served is not None and number <= served:
            return Judged(number, True, follows)
        if follows == served and number == self.numbers[-1]:
            return Judged(number, True, follows, f"{said}, and isn't served yet")
        return Judged(number, False, None, f"{said}, and is after the one that is served")


def fork_in(judged: list[Judged]) -> str | None:
    """What is said of the first edition that doesn't follow the last one that follows another."""
    last = 0
    for one in judged:
        if one.follows is not None:
            if one.follows < last:
                return f"edition {one.number} follows {one.follows}, but edition {last} comes between them"
            last = one.number
    return None


def verified(live: Path, name: str) -> Answer:
    """What `editions --verify` answers for a folder that reads, which is named so."""
    editions, current = live / "editions", live / "current"
    numbers = sorted(int(one.name) for one in editions.iterdir() if one.name.isdigit()) if editions.is_dir() else []
    folder, lines, right = FolderReading(live, name, numbers), [], True
    served, ending = None, "; none is served"
    if current.is_file():
        try:
            served = number_in(current.read_bytes())
            ending = f"; edition {served} is served"
            if served not in numbers:
                right, lines = False, [f"{name}/current: edition {served} isn't there"]
        except Refused:
            right, ending, served = False, "", numbers[-1] if numbers else None
            lines = [f"{name}/current: has to hold an edition's number and a line end"]
    judged = [folder.judge(number, served) for number in numbers]
    fork = fork_in(judged)
    right = right and fork is None and all(one.is_right for one in judged)
    lines += [said for said in [*(one.said for one in judged), fork] if said]
    count = f"{len(numbers)} edition" + ("" if len(numbers) == 1 else "s")
    lines += [count + ending, "CLEARED" if right else "REFUSED"]
    return Answer(int(not right), lines_text(lines))
