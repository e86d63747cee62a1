"""The list of a base's frames."""

import json
from collections.abc import Iterator
from typing import Literal

from .audit import Survey
from .base import Answer, Asked, Frame, answers
from .faults import base_of

Form = Literal["line", "json"]


def dash(value: object) -> object:
    return "-" if value in (None, "") else value


def terms(frame: Frame) -> str:
    return f"PRICE {frame.price} GROUP {dash(frame.group)}"


def lines(survey: Survey) -> Iterator[str]:
    """A line for each frame: those that are reached as they are discovered, and then the others by id."""
    frames = survey.base.frames
    for id, script in survey.scripts.items():
        yield f"FRAME {id} RANK {dash(survey.ranks.get(id))} {terms(frames[id])} SCRIPT {dash(script)}\n"
    for id in survey.unreached:
        yield f"UNREACHED {id} {terms(frames[id])}\n"


def line_of(**columns: object) -> str:
    return json.dumps(columns, separators=(",", ":")) + "\n"


def objects(survey: Survey) -> Iterator[str]:
    """The same as objects of JSON."""
    scripts, ranks = survey.scripts, survey.ranks
    for id in [*scripts, *survey.unreached]:
        frame = survey.base.frames[id]
        terms = {"price": frame.price, "group": frame.group}
        yield line_of(frame=str(id), reached=id in scripts, rank=ranks.get(id), **terms, script=scripts.get(id))


@answers
def listing(text: bytes, asked: Asked, form: Form = "line") -> Answer:
    """What `list` answers in a form."""
    policy = asked.policy
    survey = Survey(base_of(text), policy)
    if line := survey.unopened:
        word, id = line.split()
        return Answer(1, line if form == "line" else line_of(frame=id, fault=word))
    return Answer(0, "".join((lines if form == "line" else objects)(survey)))
