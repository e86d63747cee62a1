"""Tests of the module on the bases of examples/. Run `python3 -m unittest` in this folder."""

import os
import unittest
from collections.abc import Callable, Sequence
from concurrent.futures import ThreadPoolExecutor
from pathlib import Path
from typing import Any
from unittest import mock

import pageaudit
from pageaudit import Finding, Look, Policy, PolicyError, Screen, TextError, Verdict

EXAMPLES = Path(__file__).resolve().parent.parent
DEMO, TOWN, NEXT = ((EXAMPLES / f"{name}.toml").read_bytes() for name in ("demo", "town", "town-next"))
DEMO_CERT, TOWN_CERT, NEXT_CERT = ((EXAMPLES / f"{name}.cert").read_bytes() for name in ("demo", "town", "town-next"))
CLOSED, BROKEN = ((EXAMPLES / f"{name}.toml").read_bytes() for name in ("closed", "town-broken"))
POLICY = Policy(ceiling=20, keyings=3)


def calls(policy: Any) -> list[Callable[[], object]]:
    """Each call that takes a policy."""
    return [
        lambda: pageaudit.check(DEMO, DEMO_CERT, policy),
        lambda: pageaudit.change(DEMO, DEMO_CERT, DEMO, DEMO_CERT, policy),
        lambda: pageaudit.audit(DEMO, policy),
        lambda: pageaudit.lint(DEMO, policy),
    ]


def shown(base: bytes, frame: str = "", groups: Sequence[int] = ()) -> Screen:
    """The screen of a frame that is there."""
    screen = pageaudit.show(base, frame, groups)
    assert screen is not None
    return screen


class Check(unittest.TestCase):
    def test_clears_a_right_certificate(self) -> None:
        self.assertEqual(pageaudit.check(DEMO, DEMO_CERT, POLICY), Verdict(True, "CLEARED"))

    def test_names_the_first_condition_that_fails(self) -> None:
        verdict = pageaudit.check(DEMO, DEMO_CERT, Policy(ceiling=0, keyings=3))
        self.assertEqual(verdict, Verdict(False, "REFUSED K2 CeilingAbove"))

    def test_raises_for_a_text_at_fault(self) -> None:
        with self.assertRaisesRegex(TextError, "^certificate: line 1: Magic$"):
            pageaudit.check(DEMO, b"x\n", POLICY)
        with self.assertRaisesRegex(TextError, "^base: X4 Absent entry$"):
            pageaudit.check(b"", b"", POLICY)

    def test_takes_any_bytes(self) -> None:
        with self.assertRaisesRegex(TextError, "^base: X2 NotToml$"):
            pageaudit.check(b"\x00\xff", DEMO_CERT, POLICY)

    def test_takes_nothing_but_bytes(self) -> None:
        others: list[Any] = [DEMO.decode(), None, bytearray(DEMO), 5]
        for text in others:
            with self.assertRaisesRegex(TypeError, f"^base has to be bytes, not {type(text).__name__}$"):
                pageaudit.check(text, DEMO_CERT, POLICY)
            with self.assertRaisesRegex(TypeError, "^new_cert has to be bytes, not "):
                pageaudit.change(DEMO, DEMO_CERT, DEMO, text, POLICY)

    def test_answers_threads(self) -> None:
        """Each with its own text: the certificates of one base differ by the caller's group."""
        policies = [Policy(20, 3, [group]) for group in range(1, 9)]
        own = [pageaudit.audit(TOWN, policy) for policy in policies]
        with ThreadPoolExecutor(len(policies)) as pool:
            found = list(pool.map(lambda policy: pageaudit.audit(TOWN, policy), policies * 30))
        self.assertEqual(len(set(own)), len(own))
        self.assertEqual(sum(it != wanted for it, wanted in zip(found, own * 30)), 0, "other certificates")


class Policies(unittest.TestCase):
    def test_takes_their_limits(self) -> None:
        groups = [*range(1, 16), 65_535]
        with self.assertRaises(TextError):
            pageaudit.audit(b"", Policy(9_999, 65_535, groups))

    def test_refuses_numbers_out_of_range(self) -> None:
        for limits in (10_000, 3), (-1, 3), (20, 65_536), (20, -1), (1 << 32, 3), (20, 1 << 70):
            with self.assertRaises(PolicyError):
                Policy(*limits)

    def test_refuses_what_is_no_list_of_groups(self) -> None:
        for groups in (9, 7), (7, 7), (0,), (65_536,), (-1,), range(1, 18):
            with self.assertRaises(PolicyError):
                Policy(20, 3, groups)

    def test_refuses_other_kinds_by_name(self) -> None:
        wrong: list[Any] = [True, 5.0, "5", None, [5]]
        for number in wrong:
            with self.assertRaisesRegex(TypeError, f"^ceiling has to be a whole number, not {type(number).__name__}$"):
                Policy(number, 3)
            with self.assertRaisesRegex(TypeError, "^keyings has to be a whole number, not "):
                Policy(20, number)
            with self.assertRaisesRegex(TypeError, r"^groups\[1\] has to be a whole number, not "):
                Policy(20, 3, [7, number])
        lists: list[Any] = ["7,9", b"79", bytearray(b"79"), memoryview(b"79"), None, 7, {7, 9}, iter([7])]
        for groups in lists:
            with self.assertRaisesRegex(
                TypeError, f"^groups has to be a list of whole numbers, not {type(groups).__name__}$"
            ):
                Policy(20, 3, groups)

    def test_refuses_to_call_without_a_policy(self) -> None:
        others: list[Any] = [None, (20, 3), 20]
        for policy in others:
            for call in calls(policy):
                with self.assertRaisesRegex(TypeError, f"^policy has to be a Policy, not {type(policy).__name__}$"):
                    call()

    def test_keeps_its_own_groups(self) -> None:
        groups = [7]
        policy = Policy(20, 3, groups)
        groups.append(5)
        self.assertEqual(policy, Policy(20, 3, (7,)))

    def test_groups_open_their_frames(self) -> None:
        self.assertNotEqual(pageaudit.audit(CLOSED, Policy(20, 3)), pageaudit.audit(CLOSED, Policy(20, 3, [7])))


class RefusedMemory(unittest.TestCase):
    def test_is_no_answer_and_no_other_error(self) -> None:
        """Of a library whose calls answer that a request for memory was refused."""
        refusing = {f"pageaudit_{name}": lambda *_: 4 for name in ("check", "change", "audit", "lint_json", "show")}
        with mock.patch.object(pageaudit, "_LIBRARY", refusing):
            for call in lambda: Policy(20, 3), *calls(POLICY):
                self.assertRaises(MemoryError, call)
            with mock.patch.object(pageaudit, "Policy", lambda *_: POLICY):
                self.assertRaises(MemoryError, pageaudit.show, DEMO)


class Change(unittest.TestCase):
    def test_clears_a_safe_change(self) -> None:
        self.assertEqual(pageaudit.change(TOWN, TOWN_CERT, NEXT, NEXT_CERT, POLICY), Verdict(True, "CLEARED"))

    def test_refuses_to_lose_a_frame(self) -> None:
        self.assertFalse(pageaudit.change(NEXT, NEXT_CERT, TOWN, TOWN_CERT, POLICY).cleared)

    def test_says_which_edition_is_at_fault(self) -> None:
        with self.assertRaisesRegex(TextError, "^new base: X4 Absent entry$"):
            pageaudit.change(TOWN, TOWN_CERT, b"", b"", POLICY)


class Audit(unittest.TestCase):
    def test_gives_the_certificate(self) -> None:
        self.assertEqual(pageaudit.audit(DEMO, POLICY), pageaudit.Audit(DEMO_CERT, ()))

    def test_gives_every_fault(self) -> None:
        report = (EXAMPLES / "town-broken.report").read_text("ascii").splitlines()
        self.assertEqual(pageaudit.audit(BROKEN, POLICY), pageaudit.Audit(None, tuple(report[1:])))

    def test_gives_a_certificate_longer_than_its_first_buffer(self) -> None:
        frame = '[[frame]]\nid = "{}a"\nrows = []\nroutes = {{ 0 = 1000, 1 = {} }}\n'
        frames = (frame.format(page, page + 1) for page in range(1_000, 9_000))
        base = f"entry = 1000\noutside = [9000]\n{''.join(frames)}".encode()
        certificate = pageaudit.audit(base, Policy(0, 65_535)).certificate or b""
        self.assertGreater(len(certificate), 1 << 16)
        self.assertTrue(pageaudit.check(base, certificate, Policy(0, 65_535)).cleared)

    def test_gives_a_report_of_two_megabytes(self) -> None:
        frame = '[[frame]]\nid = "{}a"\nprice = 21\nrows = []\nroutes = {{ 1 = {} }}\n'
        frames = (frame.format(page, page + 1) for page in range(1_000, 2_500))
        faults = pageaudit.audit(f"entry = 1000\noutside = [2500]\n{''.join(frames)}".encode(), POLICY).faults
        self.assertEqual((len(faults), faults[-1]), (2_999, f"NORETURN 2499a SCRIPT {'1' * 1_499}"))


class Show(unittest.TestCase):
    def test_shows_the_entry_frame(self) -> None:
        screen = shown(DEMO)
        self.assertEqual((len(screen.codes), len(screen.looks)), (960, 960))
        self.assertEqual(screen.codes[:40].decode().split(), ["123a", "0p"])
        self.assertEqual("".join(look.character for look in screen.looks[40:47]), "WELCOME")
        self.assertEqual(pageaudit.show(DEMO, "123"), screen)

    def test_says_how_a_cell_looks(self) -> None:
        red_mosaics = b'entry = 1\n[[frame]]\nid = "1a"\nbody = "\\u001BQ!"\n'
        looks = shown(red_mosaics, "1a", [7]).looks
        self.assertEqual(looks[41], Look("\U0001FB00", 1, 0, False, False, False, 0))

    def test_has_no_screen_of_a_frame_that_the_base_lacks(self) -> None:
        for frame in "124a", "124", "x", "123A", "\u00e4":
            self.assertIsNone(pageaudit.show(DEMO, frame))

    def test_refuses_what_the_others_refuse(self) -> None:
        with self.assertRaisesRegex(TextError, "^base: X4 Absent entry$"):
            pageaudit.show(b"")
        with self.assertRaises(PolicyError):
            pageaudit.show(DEMO, groups=[9, 7])
        with self.assertRaisesRegex(TypeError, "^frame has to be a str, not NoneType$"):
            none: Any = None
            pageaudit.show(DEMO, none)


class Lint(unittest.TestCase):
    def test_finds_nothing_in_a_right_base(self) -> None:
        self.assertEqual(pageaudit.lint(DEMO, POLICY), [])

    def test_finds_a_fault_at_its_place(self) -> None:
        found = pageaudit.lint(b'entry = 1\n\n[[frame]]\nid = "1a"\nlead = "keep"\n', POLICY, file="own.toml")
        self.assertEqual(
            [(it.file, it.line, it.column, it.level, it.code) for it in found], [("own.toml", 4, 6, "error", "X4")]
        )

    def test_a_file_name_may_be_no_utf8(self) -> None:
        found = pageaudit.lint(b"\xff", POLICY, file=os.fsdecode(b"own\xff.toml"))
        self.assertEqual([it.file for it in found], ["own\ufffd.toml"])

    def test_a_finding_has_what_json_has(self) -> None:
        (missing,) = pageaudit.lint(CLOSED, Policy(9_999, 65_535, [7]))
        message = "key 9 of frame 1231a leads to page 555, which has no frame a (keys 19)"
        hint = "write frame 555a, or list 555 in outside"
        self.assertEqual(missing, Finding("MISSING", "error", "", 14, 21, 14, 28, "1231a", "9", "19", message, hint))

    def test_a_text_that_is_no_base_is_a_finding(self) -> None:
        self.assertEqual([type(it) for it in pageaudit.lint(b"\xff", POLICY)], [Finding])


if __name__ == "__main__":
    unittest.main()
