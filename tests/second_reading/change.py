"""A change of edition: the verdict on it, and what callers meet who are inside while it comes."""

from typing import NamedTuple

from .audit import Ranks, ranks_of
from .base import Answer, Asked, Base, Groups, Key, Policy, Refused, answers
from .certificate import Certificate, certificate_of, refusal, verdict
from .faults import base_of
from .screen import paint
from .session import Session


class Texts(NamedTuple):
    """The texts of an edition: a base and its certificate."""

    base: bytes
    certificate: bytes


class Edition(NamedTuple):
    base: Base
    certificate: Certificate


def edition_of(texts: Texts) -> Edition:
    return Edition(base_of(texts.base), certificate_of(texts.certificate))


def new_edition_of(texts: Texts) -> Edition:
    """The second edition; what refuses it says that it is the new one."""
    try:
        return edition_of(texts)
    except Refused as fault:
        raise Refused(f"new {fault}") from None


def change_refusal(old: Edition, new: Edition, policy: Policy) -> str | None:
    """The first condition that fails of a change between two editions, or None."""
    for word, edition in ("OLD", old), ("NEW", new):
        if fault := refusal(*edition, policy):
            return f"{word} REFUSED {fault}"
    if old.base.entry != new.base.entry:
        return "REFUSED E1 EntryMoved"
    lost = old.certificate.ranks().keys() - new.certificate.ranks().keys()
    return f"REFUSED E2 NoLongerCovered {min(lost)}" if lost else None


@answers
def change(old: Texts, new: Texts, asked: Asked) -> Answer:
    """What `change` answers."""
    policy = asked.policy
    return verdict(change_refusal(edition_of(old), new_edition_of(new), policy))


def broken_promise(edition: Edition, ranks: Ranks, session: Session, reply: str) -> str | None:
    """What a reply, or the state after it, breaks of what was cleared; None if it keeps all."""
    base, certificate = edition
    if reply.startswith(("MISSING", "CLOSED")):
        return reply
    words = reply.split(" ")
    if words[0] == "SHOWN" and int(words[2]) > certificate.ceiling:
        return f"{reply} above {certificate.ceiling}"
    if words[0] in ("SHOWN", "AGAIN") and session.at:
        frame = base.frames[session.at]
        if paint(frame.keep, frame.body).touch:
            return f"{reply} touches"
    if session.at is not None and ranks.get(session.at, 65_536) > certificate.keyings:
        return f"no way back from {session.at}"
    return None


def crossing(editions: list[Edition], groups: Groups, keys: list[list[Key]]) -> str | None:
    """What a session over the editions breaks of what was cleared, of one list of keys for each; or None."""
    if editions[0].base.unopened(groups):
        return "the first edition opens no session"
    session = Session(editions[0].base, groups)
    for edition, words in zip(editions, keys):
        session.base = base = edition.base
        ranks = ranks_of(base, [id for id, frame in base.frames.items() if frame.is_open(groups)])
        for word in ["*00", *words]:
            if fault := broken_promise(edition, ranks, session, session.key(word)):
                return fault
    return None
