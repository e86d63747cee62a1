"""Lines that the prover printed, with what refusals.py has to make of them: tests/contracts compares both."""

from collections.abc import Iterator
from pathlib import Path

from harness.edits import Change
from refusals import FACT, UNTRIED, as_fact, fault_of, names_a_goal, of_paths, verdict

DIFFER = (
    "./proofs/key_text/keys_read/Answers.antt:18:5: error: `returns-in_default`: computed as far as they go, "
    "the two types differ only where one has `c.loop-at.at + 0` (expected) and the other has `c.loop-at.at` (found)"
)
SOUGHT = (
    "./proofs/key_text/keys_read/Answers.antt:19:106: error: `returns-in_default`: `grind` stopped at its own "
    "limit of instances of lemmas, so the goal may hold. By the facts that it had used, the goal fails at "
    "`c.args.text.now` = `x ∷ x'`"
)
ENSURES = (
    "note: src/parts.rt:14:13: it is not proved that what the function ensures holds when it returns "
    "(`returns-then-text-i-clause-shorter`); the facts known there allow values at which this goal is false"
)
LOOP = (
    "note: src/key_text.rt:48:5: it is not proved that the invariant of the loop holds (`loop-at-preserved`); "
    "`search` gave up at one of its limits"
)
NOT_PROVED = "fn page_ids::key_text::keys_read: not proved; it calls `page_ids::key_text::key_at`, which is not proved"
ONLY_CALLS = (
    "fn page_ids::key_text::keys_read: no proof: it calls `page_ids::key_text::key_at` and "
    "`page_ids::key::KeyList::of`, which are not proved"
)
OTHER = "fn page_ids::parts::cut: not proved"

STILL_PROVED = "it is still proved"
ANSWER_ALONE = "no goal is named, only an answer in proofs/ that no longer fits"
UNPROVED = "fn page_ids::key_text::keys_read: no proof: expected answers in ./proofs/key_text/keys_read/Answers.antt"
# What a check prints, and why the edit of `keys_read` isn't refused for its meaning.
CHECKS = [
    (["fn page_ids::key_text::keys_read: proved"], STILL_PROVED),
    ([UNPROVED, LOOP], ANSWER_ALONE),
    ([LOOP, NOT_PROVED], None),
    ([SOUGHT, NOT_PROVED], None),
    ([NOT_PROVED], ANSWER_ALONE),
    ([ENSURES, OTHER, NOT_PROVED], ANSWER_ALONE),
    ([ONLY_CALLS], UNTRIED),
    ([OTHER], UNTRIED),
]
# What a check of two edits prints, and why that of each function isn't refused for its meaning.
BATCH = ["fn page_ids::parts::cut: proved", LOOP, NOT_PROVED]
OF_BATCH = [("key_text::keys_read", None), ("parts::cut", STILL_PROVED)]
# What rt prints after "refused, as it must be", cut at 160 characters, and whether it names a goal.
RT_LINES = [(ENSURES[:160], True), (LOOP[:160], True), (SOUGHT[:160], True), (DIFFER[:160], False), ("", False)]

# A file of answers, and the second one as a fact.
ANSWERS = (
    "pub one : goal.one\none c = f c.x\n\npub two : goal.two\ntwo g c =\n    let y = c.y in\n    λ z (h : A z). {}\n"
)
RECORD = "record {{\n      one = {};\n      two = record {{ x = y; }};\n      three = search rules;\n    }}"
HELD = f"let {FACT} = (\n    g y z h\n    ) in grind (arith, common_steps, {FACT})"

# An edit's old and new text, and whether they say the same.
TEXTS = [
    ("at + 1", "at+1 // the next", True),
    ("at + 1", "at + 2", False),
    ('"a b"', '"a  b"', False),
    ("let at = 1", "letat = 1", False),
    ('"http://a"', '"http://b"', False),
]


def faults() -> Iterator[str | None]:
    """For each row what is made of it, if that is something else, or None."""
    path = ["key_text::keys_read"]
    rows: list[tuple[object, object]] = [
        (fault_of(None, {}, path, of_paths("\n".join(lines), path)), wanted) for lines, wanted in CHECKS
    ]
    rows += [(verdict(of_paths("\n".join(BATCH), [name])), wanted) for name, wanted in OF_BATCH]
    answer = "proofs/key_text/keys_read/Answers.antt", "returns-in_default"
    rows.append((of_paths(f"{DIFFER}\n{NOT_PROVED}", path)[0].answers, [answer]))
    rows += [(names_a_goal(line), wanted) for line, wanted in RT_LINES]
    answers = ANSWERS.format("g y z h")
    rows += [(as_fact(answers, "two"), ANSWERS.format(HELD)), (as_fact(answers, "three"), None)]
    record = ANSWERS.format(RECORD.format("g y z h"))
    wanted = ANSWERS.format(RECORD.format(f"({HELD})")).replace("search rules", "(search rules)")
    rows += [(as_fact(record, "two"), wanted)]
    rows += [(Change(Path(), old, new).says_the_same(), wanted) for old, new, wanted in TEXTS]
    for found, due in rows:
        yield None if found == due else f"refusals: wanted {due}, found {found}"
