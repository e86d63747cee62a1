"""Numbers, texts, characters and kinds as `lint` writes them."""

import datetime

LONGEST = 40
KINDS: list[tuple[type | tuple[type, ...], str]] = [
    (bool, "true or false"),
    (int, "a whole number"),
    (float, "a decimal number"),
    (str, "a string"),
    (list, "a list"),
    (dict, "a table"),
    ((datetime.date, datetime.time), "a date or time"),
]


def number_of(number: int, one: str, more: str) -> str:
    return f"{number:,} {one if number == 1 else more}"


def quoted(text: str) -> str:
    """A text of the file between quotation marks."""
    shown = ""
    for c in text[:LONGEST]:
        if c in '"\\':
            shown += "\\" + c
        else:
            shown += f"\\u{ord(c):04X}" if c < " " or "\x7f" <= c <= "\x9f" else c
    return f'"{shown}..."' if len(text) > LONGEST else f'"{shown}"'


def code(c: str) -> str:
    """A character and its code point."""
    point = f"U+{ord(c):04X}"
    return f"{c} ({point})" if "!" <= c <= "~" or c >= "\xa1" else point


def kind(value: object) -> str:
    return next(words for types, words in KINDS if isinstance(value, types))
