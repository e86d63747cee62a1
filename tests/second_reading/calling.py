"""A call of a base: which bytes of a caller are keys, and what the caller's terminal shows after them."""

import re

from .base import Base, FrameId, Groups
from .screen import CELLS, State, lead, step
from .screens import BLANK
from .session import Session

# Telnet's commands: FF and one byte; FF, one of FB to FE and an option; FF FA up to FF F0.
TELNET = re.compile(rb"\xff(?:[^\xfa-\xfe]|[\xfb-\xfe].|\xfa(?:[^\xff]|\xff[^\xf0])*\xff\xf0)", re.S)
WORDS = {
    "NOTOFFERED": "KEY NOT IN USE",
    "MISSING": "NO SUCH PAGE",
    "CLOSED": "CLOSED USER GROUP ONLY",
    "GONE": "LEAVING FOR PAGE ",
    "SHOWN": "",
    "AGAIN": "",
}


class Call:
    """A caller of these groups who is served one base, and then perhaps others."""

    def __init__(self, base: Base, groups: Groups) -> None:
        self.session = Session(base, groups)
        self.keys = ""
        self.command = self.words = self.top = ""
        self.telnet = b""
        self.is_over = False
        self.state = State(0, False)
        self.cells = [BLANK] * CELLS
        self.send(base.entry_id)

    def exchange(self, base: Base) -> None:
        """From the next key on another base is served."""
        self.session.base = base

    def send(self, id: FrameId) -> None:
        """A frame of the base that is served now."""
        frame = self.session.base.frames[id]
        for byte in lead(frame.keep) + frame.body:
            self.state, written = step(self.state, byte)
            for at, code in written:
                self.cells[at] = code
        price = f"{frame.price}p"
        self.top = f"{str(id):>35}{price:>5}"

    def hear(self, data: bytes) -> None:
        """What the caller sends, up to the end of the call."""
        for byte in data:
            if self.is_over:
                return
            if self.telnet or byte == 0xFF:
                self.telnet += bytes([byte])
                if TELNET.fullmatch(self.telnet):
                    self.telnet = b""
            else:
                self.type(chr(byte & 0x7F))

    def type(self, sign: str) -> None:
        if sign in "#_":
            self.end_command()
        elif sign == "*":
            self.command = "" if self.command == "*" else "*"
        elif sign in "0123456789":
            self.digit(sign)

    def digit(self, sign: str) -> None:
        if not self.command:
            self.press(sign)
        elif self.command == "*0" and sign in "09":
            self.press(self.command + sign)
        elif len(self.command) < 10:
            self.command += sign

    def end_command(self) -> None:
        """A number sign."""
        if self.command in ("", "*"):
            self.press(self.command + "#")
        else:
            self.is_over = self.command == "*90"
            self.words = "GOODBYE" if self.is_over else "PAGES CANNOT BE KEYED HERE"
        self.command = ""

    def press(self, key: str) -> None:
        self.command = ""
        self.keys += key
        reply, _, rest = self.session.key(key).partition(" ")
        self.is_over = reply == "GONE"
        self.words = WORDS[reply] + rest * self.is_over
        if reply in ("SHOWN", "AGAIN") and self.session.at:
            self.send(self.session.at)

    def screen(self) -> bytes:
        """The 960 codes of the caller's terminal."""
        bottom = f"{self.command or self.words:<40}"
        return self.top.encode() + bytes(self.cells[40:920]) + bottom.encode()
