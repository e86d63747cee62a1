"""Random bases, certificates, groups and keys: mostly right, some of them with a few things wrong."""

from collections.abc import Iterator, Sequence
from typing import Literal, cast

from harness.writing import Chance, PlainPen

from .audit import Survey, audit
from .base import DIGITS, Asked, Base, FrameId, Groups, Policy, id_in, lines_text
from .certificate import Certificate, Row
from .change import Texts
from .faults import BaseTable, FrameTable, right_base
from .map import View
from .screen import paint
from .toml import Table

PAGES = [0, 1, 5, 12, 123, 1231, 555, 999_999_999]
ODD_VALUES: list[object] = [0, -1, 1, True, False, 1.5, -(2**63), "", "a", "123a", [], {}, [1], {"1": 1}, [{}]]
ODD_FIELDS: dict[str, list[object]] = {
    "entry": [-1, 1_000_000_000, "1", True],
    "outside": [[0, -1, "a"], ["a", -1], [1_000_000_000], [1.5]],
    "frame": [{}, [{}, 1], ["a"]],
    "name": [1],
    "id": ["0123a", "1000000000a", "999999999z", "123A", "123", 7, 7],
    "price": [-1, 10_000, 9_999, True],
    "group": [0, 65_536, 65_535, "7"],
    "next": [0, "true"],
    "routes": [[1], {"10": 1}, {"1": -1, "0": "x"}, {"9": 1_000_000_000, "1": "x"}, {"0": -1, "x": 1}],
    "lead": ["KEEP", "Clear", 1, True],
    "body": ["\u0100", "A\U0001f600", "x" * 4_096, "x" * 4_097, ["A"]],
    "rows": [["A" * 41, 1], ["\x1b", "A" * 41], ["A", "\xa0"], ["A"] * 23, [1] * 23, ["A", 1], "A", ["A" * 40] * 22],
}
FRAME_FIELDS = ["id", "price", "group", "next", "routes", "lead", "body", "rows", "rows", "name"]
CODES = ["A", "M", "\x1b", "\r", "\n", "\x1e", "\x08", "\t", "\x0b", "\x0c", "\x91", "\xc1", "\x1bM", "\x11", "\x18"]
INSIDE = ["A" * 40, "\r\n", "\x1bA", "\x8dX", "\x1b", "\x1b0", "\t\x08", "\n\x0b", "\xe9", "\r"]
ROWS = ["", "A", "WELCOME", "\x8dM", " \x7f\x80\x9f", "B" * 39, "C" * 40, '"\\']
KEYS = ["0", "1", "2", "3", "5", "9", "#", "#", "*#", "*#", "*00", "*09"]
PARTS = [
    ["0a", "1a", "123a", "1231b", "999999999z", "1000000000a", "", "12A"],
    ["0", "1", "2", "65535", "65536", "99999999999999999999", "", "01"],
    ["s80", "any", "any?", "any+", "c0", "c39", "c40", "s959", "s960", "s00", "c", "", "?", "s48+", "C1"],
]
HEAD_LINES = [
    *("PBC1", "PBC2", "PBC3", "entry 123", "entry 0123", "entry 1000000000", "entry", "entry ", "ceiling 0"),
    *("ceiling 9999", "ceiling 10000", "keyings 0", "keyings 65535", "keyings 65536", "rows 0", "rows 1", "rows 65536"),
]
GROUPS = [1, 7, 9, 65_535]
MANY = [*range(1, 15), 65_534, 65_535]
ODD_LISTS: list[list[str]] = [
    [],
    *([""], ["", "7"], ["7", ""], ["7", "", "9"], ["9", "7"], ["7", "7"], ["7", "9", "8"], ["0"], ["0", "0"]),
    *(["7", "0"], ["07"], ["7", "09"], ["00"], ["65536"], ["7", "65536"], ["9" * 20], ["7x"], ["+7"], ["\xb2"]),
    *(["a", "0"], ["0", "a"], ["9", "7", "a"]),
    *([*map(str, MANY), "9"], [*map(str, MANY), "0"], [*map(str, MANY), "x"], [*map(str, range(1, 18))]),
]

VIEWS: list[Literal["page", "to"] | None] = [None, "page", "to"]
NO_ROWS = b"PBC1\nentry 123\nceiling 0\nkeyings 0\nrows 0\nend\n"


def word_of(groups: Groups) -> str | None:
    """The word of `--groups` for these groups; none if there are none."""
    return ",".join(map(str, groups)) or None


def asked_by(groups: Groups) -> Asked:
    """What a caller of these groups asks without limits."""
    return Asked(option=word_of(groups))


class Inputs(Chance):
    """Random inputs, mostly right."""

    def body(self, wild: bool) -> str:
        """A body that writes from row 1 on, or a wild one."""
        if not wild:
            return "\x1e\n" + "".join(self.pick(INSIDE) for _ in range(self.random.randrange(4)))
        if self.chance(0.3):
            return "".join(self.pick(CODES) for _ in range(self.random.randrange(12)))
        if self.chance(0.4):
            last = ["", "\x1b", "\r", "\x8d", "\x8d", "\x1bM", "M", "\x08\x08B", "\x08\x8d", "\r\x8c"]
            return "\x1e\n" + "A" * self.pick([838, 839, 840, 841, 879, 880, 881]) + self.pick(last)
        if self.chance(0.6):
            far = "\t" * 39
            last = ["A", "M", "\x1b", "\x1b0A", "\x1bM", "\x8d", "\x1bL", far + "BC", far + "\x8d", "\x08A", "\x08\x8d"]
            return "\x1e" + "\n" * self.random.randrange(25) + self.pick(last)
        first = self.pick(["\r", "\r\n", "\n", "\x1b", "\r\x08"]) * self.random.randrange(3)
        return first + self.pick(["", "\x1b", "A", "M", "\x1b0", "\x1bM", "\x8d"])

    def ids(self, pages: list[int]) -> Iterator[FrameId]:
        """A few frames of each page, which need not begin with `a`."""
        for page in pages:
            first = ord("a") if self.chance(0.9) else ord(self.pick("bxy"))
            for letter in range(first, min(first + self.pick([1, 1, 2, 3, 4]), ord("z") + 1)):
                yield FrameId(page, chr(letter))

    def frame(self, id: FrameId, ids: list[FrameId], targets: list[int], wild: float, closed: float) -> FrameTable:
        """A frame whose routes and `next` lead somewhere, but for a share of wild ones; a share has a group."""
        following = id.following in ids
        table: FrameTable = {"id": str(id)}
        if self.chance(0.5):
            table["price"] = self.pick([0, 1, 5, 5, 50, 9_999])
        if self.chance(closed):
            table["group"] = self.pick(GROUPS)
        if following or self.chance(0.2):
            table["next"] = following != (id.letter < "y" and self.chance(wild))
        digits = self.random.sample("0123456789", self.pick([0, 10] if self.chance(wild) else [1, 2, 3, 4]))
        table["routes"] = {digit: self.pick(PAGES if self.chance(wild) or not targets else targets) for digit in digits}
        if self.chance(0.3):
            table["lead"] = self.pick(["keep", "keep", "clear"])
        if self.chance(0.4):
            table["rows"] = [self.pick(ROWS) for _ in range(self.pick([0, 1, 2, 5, 22]))]
        else:
            table["body"] = self.body(self.chance(2 * wild))
        return table

    def tree(self) -> BaseTable:
        wild = self.pick([0.0, 0.0, 0.05, 0.2, 0.5])
        closed = self.pick([wild, wild, 0.3, 0.7])
        pages = self.random.sample(PAGES, self.random.randrange(1, 6))
        outside = [page for page in PAGES if page not in pages and self.chance(0.4)]
        ids = list(self.ids(pages))
        self.random.shuffle(ids)
        targets = [page for page in pages if FrameId(page, "a") in ids] + outside
        entry = self.pick(pages if self.chance(0.95) else PAGES)
        outside += outside[:1] * self.chance(0.1)
        return {"entry": entry, "outside": outside, "frame": [self.frame(id, ids, targets, wild, closed) for id in ids]}

    def odd(self, field: str) -> object:
        """A value that is wrong for the field, or at its limits."""
        return self.pick(ODD_VALUES if self.chance(0.3) else ODD_FIELDS[field])

    def break_frame(self, frames: list[Table]) -> None:
        index = self.random.randrange(len(frames))
        table, share = frames[index], self.random.random()
        if share < 0.6:
            field = self.pick(FRAME_FIELDS)
            table[field] = self.odd(field)
            if field in ("body", "rows") and self.chance(0.8):
                table.pop("rows" if field == "body" else "body", None)
        elif share < 0.7:
            del table[self.pick(list(table))]
        elif share < 0.8:
            frames.append(dict(table))
        elif share < 0.9:
            routes = cast(Table, table.get("routes", {}))
            table["routes"] = {**routes, self.pick(["0", "9", "10", "x", ""]): self.pick(ODD_VALUES)}
        else:
            table["id"], table["next"] = f"{self.pick(PAGES)}z", True

    def break_tree(self, right: BaseTable) -> None:
        tree, frames = cast(Table, right), right["frame"]
        if self.chance(0.7):
            self.break_frame(cast(list[Table], frames))
        elif self.chance(0.3):
            tree["outside"] = right["outside"] + [int(frames[0]["id"][:-1])]
        elif self.chance(0.7):
            field = self.pick(["entry", "outside", "frame", "name"])
            tree[field] = self.odd(field)
        else:
            del tree[self.pick(list(tree))]

    def text(self, base: BaseTable) -> bytes:
        """The TOML text of the tree; now and then with a byte that spoils it."""
        text = bytearray(PlainPen(self.random).base(base, self.chance(0.8)))
        if self.chance(0.03):
            text[self.random.randrange(len(text))] = self.pick(b"\x00\xff\xc3\"'=.")
        return bytes(text)

    def base_text(self) -> bytes:
        tree = self.tree()
        if self.chance(0.4):
            self.break_tree(tree)
        return self.text(tree)

    def next_tree(self, tree: BaseTable) -> BaseTable:
        """The next edition of a base: the same, or with a few changes as a provider makes them, some of them wrong."""
        frames = [cast(FrameTable, {**table, "routes": dict(table.get("routes", {}))}) for table in tree["frame"]]
        tree = {"entry": tree["entry"], "outside": tree["outside"], "frame": frames}
        for _ in range(self.pick([0, 1, 1, 2, 3])):
            self.change_tree(tree)
        return tree

    def change_tree(self, tree: BaseTable) -> None:
        frames, share = tree["frame"], self.random.random()
        table = self.pick(frames)
        if share < 0.25:
            table["price"] = self.pick([0, 1, 5, 50, 9_999])
        elif share < 0.4:
            table.pop("rows", None)
            table["body"] = self.body(self.chance(0.1))
        elif share < 0.6 and len(frames) > 1:
            frames.remove(table)
            if self.chance(0.8):
                self.forget(frames, table["id"])
        elif share < 0.72:
            page = self.pick(PAGES)
            if page not in tree["outside"] and not any(old["id"] == f"{page}a" for old in frames):
                frames.append({"id": f"{page}a", "routes": {"0": tree["entry"]}, "rows": ["NEW"]})
                table["routes"][self.pick(DIGITS)] = page
        elif share < 0.8:
            table["group"] = self.pick(GROUPS)
        elif share < 0.9:
            tree["entry"] = int(table["id"][:-1])
        else:
            table["routes"] = {}

    def forget(self, frames: list[FrameTable], id: str) -> None:
        """No route and no `next` leads to the frame any more."""
        for table in frames:
            table["routes"] = {digit: to for digit, to in table["routes"].items() if f"{to}a" != id}
            if (other := id_in(table["id"])) and str(other.following) == id:
                table["next"] = False

    def safe_tree(self, groups: Groups) -> BaseTable:
        """A base that is safe for a caller of these groups, if one comes up soon."""
        for _ in range(8):
            tree = self.tree()
            if audit(self.text(tree), asked_by(groups)).status == 0:
                break
        return tree

    def editions(self, groups: Groups) -> list[Texts]:
        """Two bases with certificates, the second of which takes the place of the first."""
        tree = self.safe_tree(groups)
        old, new = self.text(tree), self.text(self.next_tree(tree))
        bases = [old, self.base_text() if self.chance(0.05) else new]
        return [Texts(base, self.own_certificate(base, groups)) for base in bases]

    def own_certificate(self, text: bytes, groups: Groups) -> bytes:
        """The audit's own certificate if there is one; else what comes near to one."""
        done = audit(text, asked_by(groups))
        return done.stdout.encode() if done.status == 0 and self.chance(0.95) else self.certificate_for(text, groups)

    def crossed_keys(self) -> list[list[str]]:
        return [[self.pick(KEYS) for _ in range(self.random.randrange(15))] for _ in range(2)]

    def keys(self) -> str:
        words = [self.pick(KEYS) for _ in range(self.random.randrange(40))]
        if self.chance(0.1):
            words.insert(self.random.randrange(len(words) + 1), self.pick(["*", "x", "*0", "*1", "\xe9", " "]))
        return "".join(words)

    def asked(self, groups: Groups, ceilings: Sequence[int] = (9_999,), keyings: Sequence[int] = (65_535,)) -> Asked:
        """Limits, and the word of `--groups` for these groups, now and then a wrong one."""
        return Asked(self.pick(ceilings), self.pick(keyings), self.option(groups))

    def view(self, text: bytes) -> View:
        """What a map of a base shows, or a page that it lacks."""
        side = self.pick(VIEWS)
        if side is None:
            return View()
        base = right_base(text)
        pages = {1, 123} | {id.page for id in (base.frames if base else []) if id.letter == "a"}
        return View(side, self.pick(sorted(pages)), self.pick([None, 0, 1, 2, 3]))

    def groups(self) -> Groups:
        """A caller's groups: often none, or those of all frames."""
        if self.chance(0.05):
            return tuple(MANY)
        return tuple(sorted(self.random.sample(GROUPS, self.pick([0, 0, 0, 1, 2, 3, 4, 4, 4]))))

    def option(self, groups: Groups) -> str | None:
        """The word of `--groups` for these groups, now and then a wrong one; None where it isn't given."""
        if self.chance(0.05):
            return self.pick([",".join(self.pick(ODD_LISTS)), "7 9", "7, 9", "7,9 "])
        return word_of(groups)

    def row(self, survey: Survey, id: FrameId) -> Row:
        """The row of a frame; if it has none of its own, one that comes near."""
        frame, rank = survey.base.frames[id], survey.ranks.get(id)
        cursor = paint(frame.keep, frame.body).cursor or "s80"
        return Row(id, self.pick([1, 9]) if rank is None else rank, cursor)

    def certificate_lines(self, base: Base, groups: Groups) -> list[str]:
        """A certificate of the frames that can be reached: the audit's own, or what comes nearest to one.

        Now and then the frames are those that others can reach.
        """
        others = self.groups() if self.chance(0.1) else groups
        survey = Survey(base, Policy(groups=others))
        if others == groups and not survey.faults():
            return survey.certificate().lines()
        rows = [self.row(survey, id) for id in sorted(survey.scripts)]
        return Certificate(base.entry, self.pick([9_999, 50]), 9, groups, rows).lines()

    def change_row(self, lines: list[str], index: int) -> None:
        parts = lines[index].split(" ")
        if len(parts) != 3:
            return
        place = self.random.randrange(3)
        if place == 1 and parts[1].isdigit() and self.chance(0.5):
            parts[1] = str(self.pick([0, max(0, int(parts[1]) - 1), int(parts[1]) + 1]))
        else:
            parts[place] = self.pick(PARTS[place])
        lines[index] = " ".join(parts)

    def change_head(self, lines: list[str]) -> None:
        """Another line in the place of the one that begins alike."""
        line = self.pick(HEAD_LINES)
        place = next((place for place, old in enumerate(lines[:6]) if old[:3] == line[:3]), 0)
        lines[place] = line

    def change_groups(self, lines: list[str]) -> None:
        """Other groups after the fourth line, or none; line 1 mostly fits them."""
        right = [*([group] for group in GROUPS), [7, 9], GROUPS, MANY]
        words = self.pick(ODD_LISTS) if self.chance(0.5) else [*map(str, self.pick(right))]
        word = self.pick(["groups ", "groups ", "groups ", "groups ", "groups", "groups  ", "Groups "])
        line = word + " ".join(words)
        is_kept = self.chance(0.8)
        lines[4 : 5 if lines[4][:6] == "groups" else 4] = [line] if is_kept else []
        if self.chance(0.8):
            lines[0] = "PBC2" if is_kept else "PBC1"

    def change_lines(self, lines: list[str], names: list[str]) -> None:
        """One thing wrong with the lines of a certificate, as their number, order, words or rows."""
        index, share = self.random.randrange(len(lines)), self.random.random()
        first = 6 if lines[4][:6] == "groups" else 5
        is_long, row = len(lines) > first + 1, self.random.randrange(first, max(first + 1, len(lines) - 1))
        if share < 0.35 and is_long:
            self.change_row(lines, row)
        elif share < 0.45 and is_long:
            del lines[row]
            lines[first - 1] = f"rows {len(lines) - first - 1}"
        elif share < 0.55 and is_long:
            rows = [*lines[first:-1], f"{self.pick(names)} 1 s80"]
            lines[first:-1] = sorted(rows, key=lambda line: id_in(line.split(" ")[0]) or FrameId(0, ""))
            lines[first - 1] = f"rows {len(lines) - first - 1}"
        elif share < 0.65:
            self.change_groups(lines)
        elif share < 0.72:
            self.change_head(lines)
        elif share < 0.8:
            lines.insert(index, self.pick([lines[index], "A" * 128, "A" * 129, "end"]))
        elif share < 0.9:
            at = self.random.randrange(len(lines[index]) + 1)
            lines[index] = lines[index][:at] + self.pick(" 019acs+?\r\xe9") + lines[index][at:]
        else:
            other = self.random.randrange(len(lines))
            lines[index], lines[other] = lines[other], lines[index]

    def certificate_for(self, text: bytes, groups: Groups) -> bytes:
        """A certificate of a base, often with a few things wrong; of one that is refused a certificate without rows."""
        if not (base := right_base(text)):
            return NO_ROWS
        lines = self.certificate_lines(base, groups)
        for _ in range(self.pick([0, 1, 1, 1, 2])):
            self.change_lines(lines, [*map(str, base.frames), "0z", "999999999z"])
        certificate = lines_text(lines).encode("latin-1")
        if self.chance(0.03):
            return certificate[: self.random.randrange(len(certificate) + 1)]
        return certificate + b"X" * self.chance(0.03)
