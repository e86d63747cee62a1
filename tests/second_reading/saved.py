"""Saved screens as a base, from the words of the rules: what a file is, its id and price, and the frame that is made of
it.
"""

import re
from collections.abc import Container, Iterable, Sequence
from typing import NamedTuple

from .base import MOST_BYTES, MOST_LISTED, Answer, FrameId
from .looks import looks
from .screens import cells_after_bytes

ROW = 40
BLANK = b" " * ROW
ID = re.compile(r"(0|[1-9][0-9]{0,8})([a-z])")
NAME_ID = re.compile(r"(0|[1-9][0-9]{0,8})([A-Za-z])")
SEPARATOR = re.compile("[-_ ]")
MOST_SCREENS = 65_535
PRICE = re.compile(r"(0|[1-9][0-9]{0,3})p")
MARK = re.compile(rb"#[0-9A-Fa-f]:")
LETTERS = "ABCDEFGHIJKLMNOPQRSTUVWXYZabcdefghijklmnopqrstuvwxyz0123456789-_"
VALUES = {ord(letter): value for value, letter in enumerate(LETTERS)} | {ord("+"): 62, ord("/"): 63}
BETWEEN_WORDS = re.compile(r"[ \t,;=]|:(?!/)")
SHEET_ROW = re.compile(rb"OL,\x20*([0-9]{1,2})\x20*(?:,(.*))?", re.DOTALL)
SHEET_NUMBER = re.compile(rb"PN,([1-9][0-9]{2})([0-9]{2})?")
SHEET_CELL = re.compile(rb"\x1b[\x40-\x5f]|.", re.DOTALL)
PAGE_NUMBER = re.compile(r":PN=([1-9][0-9]{2})([0-9]{2})?(?![A-Za-z0-9_+/-])")
WAYS_TO_NAME = "write it before the address, e.g. 100a https://.., or in TTI as PN,10001 to PN,10026"
ESCAPED = {ord('"'): '\\"', ord("\\"): "\\\\"}


class Screen(NamedTuple):
    """The frame of a screen: its file's path, the offset at which it begins, its price if it shows one, its codes, and
    the line of its address or page.
    """

    path: str
    offset: int
    price: int | None
    cells: bytes
    line: int | None = None

    @property
    def place(self) -> str:
        return self.path if self.line is None else f"{self.path}:{self.line}"

    def holds(self, other: "Screen") -> bool:
        """Whether the other is this one cut short: its price, and in rows 1 to 22 spaces or the same cells."""
        cells = zip(self.cells[ROW : 23 * ROW], other.cells[ROW : 23 * ROW], strict=True)
        return self.price == other.price and all(theirs in (0x20, ours) for ours, theirs in cells)


class NoScreen(Exception):
    """What is said of a file, or of a line of it, after its path and a colon."""

    def __init__(self, why: str, line: int | None = None) -> None:
        super().__init__(why)
        self.line = line


def saved(byte: int) -> int:
    """The code of a byte of a saved screen: the first 32 are attributes as teletext stores them, the last 96
    characters.
    """
    if byte < 0x20:
        return byte + 0x80
    return byte if byte < 0xA0 else byte & 0x7F


def saved_rows(rows: bytes) -> bytes:
    """The codes of the rows of a dump or an EP1 file. If its blanks are NULs, no byte is a space, 20 or A0."""
    if b"\x20" not in rows and b"\xa0" not in rows:
        rows = rows.replace(b"\0", b" ")
    return bytes(map(saved, rows))


def cells_of(data: bytes) -> bytes:
    """The 960 codes of a saved screen."""
    size = len(data)
    if not data:
        raise NoScreen("empty")
    if size == 880:
        return BLANK + saved_rows(data) + BLANK
    if size in (960, 1000, 1024):
        return saved_rows(data[:960])
    if data[:2] == b"\xfe\x01" and size in (968, 1008):
        return saved_rows(data[6:966])
    sizes = "a screen has 960, 1000, 1024 or 880 bytes, an EP1 file begins FE 01 and has 968 or 1008"
    raise NoScreen(f"size {size}; {sizes}; TTI and addresses are text; a capture of a call needs --stream")


def id_of(word: str) -> FrameId | None:
    found = ID.fullmatch(word)
    return FrameId(int(found[1]), found[2]) if found else None


def head(cells: bytes) -> tuple[FrameId | None, int | None]:
    """The id and the price that row 0 shows. The price ends in its last column, alone or right after an id."""
    row = "".join(chr(code) if code < 0x80 else " " for code in cells[:ROW])
    price = None
    for at in range(ROW):
        before = row[:at].split(" ")[-1]
        if PRICE.fullmatch(row[at:]) and (not before or id_of(before)):
            price, row = int(row[at:-1]), row[:at]
            break
    ids = [id for id in map(id_of, row.split(" ")) if id]
    return ids[-1] if ids else None, price


def name_id(path: str) -> FrameId | None:
    """The id that a file's name says, in any case: all of it up to the first dot, or what follows its last separator
    unless it begins with an id.
    """
    words = SEPARATOR.split(path.split("/")[-1].split(".")[0])
    ids = [FrameId(int(found[1]), found[2].lower()) if found else None for found in map(NAME_ID.fullmatch, words)]
    return ids[-1] if len(ids) == 1 or not ids[0] else None


def frame_of(path: str, cells: bytes, offset: int = 0) -> dict[FrameId, list[Screen]]:
    """The frame of a file of one screen."""
    shown, price = head(cells)
    id = name_id(path) or shown
    if not id:
        raise NoScreen("no frame id: name the file by it, e.g. 478a.bin")
    return {id: [Screen(path, offset, price, cells)]}


def linked_cells(letters: bytes) -> bytes:
    """The codes of 24 rows: seven bits a cell, the most significant first, six bits a letter."""
    bits = "".join(f"{VALUES[letter]:06b}" for letter in letters)
    cells = (int(bits[at : at + 7], 2) for at in range(0, 7 * 24 * ROW, 7))
    return bytes(cell + 0x80 if cell < 0x20 else cell for cell in cells)


def letters_of(cells: bytes) -> str:
    """The letters of an address: 24 rows, a blank row 24 and two bits."""
    bits = "".join(f"{cell & 0x7F:07b}" for cell in cells + BLANK) + "00"
    return "".join(LETTERS[int(bits[at : at + 6], 2)] for at in range(0, len(bits), 6))


def file_of(form: str, id: FrameId, cells: bytes) -> bytes:
    """The file that `export` writes of a frame's screen."""
    if form == "ep1":
        return b"\xfe\x01\x09\0\0\0" + bytes(cell & 0x7F for cell in cells) + b"\0\0"
    if form == "tti":
        return sheet_of(id, cells)
    return f"{id} https://edit.tf/#0:{letters_of(cells)}\n".encode() if form == "link" else cells


def sheet_of(id: FrameId, cells: bytes) -> bytes:
    """A TTI file: the lines before the rows, and rows 0 to 22 that aren't blank."""
    place = f"{ord(id.letter) - 96:02}"
    page = id.page if 100 <= id.page <= 899 else 100
    lines = [f"DE,{id}", f"PN,{page}{place}", f"SC,00{place}", "PS,8000", "RE,0"]
    sheet = [line.encode() for line in lines]
    for number in range(23):
        row = cells[ROW * number : ROW * (number + 1)]
        text = b"".join(b"\x1b%c" % (code - 0x40) if code >= 0x80 else bytes([code]) for code in row)
        sheet += [b"OL,%d,%b" % (number, text)] if row != BLANK else []
    return b"".join(line + b"\r\n" for line in sheet)


def subpage_id(page: bytes, subpage: bytes | None) -> FrameId | None:
    """The id of a teletext page: its subpage is a letter, if it is one of 26."""
    number = int(subpage or 0)
    return FrameId(int(page), "a" if number < 2 else chr(96 + number)) if number <= 26 else None


def beside(before: bytes) -> FrameId | None:
    """The id that is the last word before an address, in any case."""
    *words, _ = BETWEEN_WORDS.split(before.decode("latin-1"))
    found = NAME_ID.fullmatch(next((word for word in reversed(words) if word), ""))
    return FrameId(int(found[1]), found[2].lower()) if found else None


def numbered(after: bytes) -> FrameId | None:
    """The id of the teletext page that zxnet writes after the letters: the first such field counts."""
    text = after.decode("latin-1")
    found = PAGE_NUMBER.match(text, max(text.find(":PN="), 0))
    return subpage_id(found[1].encode(), (found[2] or "").encode()) if found else None


def linked_screens(data: bytes) -> list[tuple[int, FrameId | None, FrameId | None, bytes]]:
    """The screens of addresses, one in a line: the line, the id beside it, the id by its page number, the codes."""
    screens = list[tuple[int, FrameId | None, FrameId | None, bytes]]()
    for number, line in enumerate(data.removeprefix(b"\xef\xbb\xbf").split(b"\n"), 1):
        before, *others = MARK.split(line)
        if not others:
            continue
        if len(others) > 1:
            raise NoScreen("two addresses in a line", number)
        size = next((at for at, byte in enumerate(others[0]) if byte not in VALUES), len(others[0]))
        if size not in (1120, 1167):
            raise NoScreen(f"an address with {size} characters; a screen has 1120 or 1167", number)
        cells = linked_cells(others[0][:1120])
        screens.append((number, beside(before), numbered(others[0][size:]), cells))
    return screens


def lines_of(data: bytes) -> list[bytes]:
    """The lines of a text, which end with LF or CR LF, without a byte order mark."""
    *ended, last = data.removeprefix(b"\xef\xbb\xbf").split(b"\n")
    return [line.removesuffix(b"\r") for line in ended] + [last]


def sheet_cell(text: bytes) -> int:
    """The code of a byte of a row, or of 1B and a byte from 40 to 5F."""
    if len(text) == 2:
        return text[1] + 0x40
    return 0x8D if text == b"\x10" else saved(text[0])


def sheet_row(text: bytes) -> bytes:
    """The cells of a row: what is past the last is dropped, what is absent a space."""
    return bytes(map(sheet_cell, SHEET_CELL.findall(text)[:ROW])).ljust(ROW)


def sheet_screens(data: bytes) -> list[tuple[int, FrameId | None, FrameId | None, bytes]]:
    """The pages of a TTI file: the line in which each begins, no id beside it, the id by its number, and the codes."""
    pages = list[tuple[int, FrameId | None, dict[int, bytes]]]()
    for number, line in enumerate(lines_of(data), 1):
        is_row = line.startswith(b"OL,")
        if line.startswith(b"PN,") or is_row and not pages:
            if len(pages) == MOST_SCREENS:
                raise NoScreen("a file has at most 65535 pages", number)
            found = SHEET_NUMBER.fullmatch(line)
            pages.append((number, subpage_id(found[1], found[2]) if found else None, {}))
        if is_row:
            row = SHEET_ROW.fullmatch(line)
            if not row:
                raise NoScreen("no row number after OL, of one or two digits", number)
            pages[-1][2][int(row[1])] = sheet_row(row[2] or b"")
    return [(line, None, id, b"".join(rows.get(at, BLANK) for at in range(24))) for line, id, rows in pages]


def frames_of_text(path: str, data: bytes) -> dict[FrameId, list[Screen]]:
    """The frames of a text. The file's name counts if it has one screen."""
    screens = sheet_screens(data) if is_sheet(data) else linked_screens(data)
    name = name_id(path) if len(screens) == 1 else None
    frames = dict[FrameId, list[Screen]]()
    for line, word, number, cells in screens:
        shown, price = head(cells)
        id = word or name or shown or number
        if not id:
            raise NoScreen(f"no frame id: {WAYS_TO_NAME}", line)
        frames.setdefault(id, []).append(Screen(path, 0, price, cells, line))
    return frames


def is_sheet(data: bytes) -> bool:
    """Whether a file is TTI: a line begins so."""
    return any(line.startswith((b"PN,", b"OL,")) for line in lines_of(data))


def is_text(data: bytes) -> bool:
    """Whether a file is TTI, or a text with addresses: it has no size of a screen, and isn't EP1."""
    is_dump = len(data) in (880, 960, 1000, 1024) or data[:2] == b"\xfe\x01"
    return is_sheet(data) or not is_dump and MARK.search(data) is not None


def screens_in(data: bytes) -> list[tuple[int, bytes]]:
    """The screens of a capture, each with its offset: those of a new terminal at each 0C."""
    sent = bytes(byte & 0x7F for byte in data)
    first, *others = sent.split(b"\f")
    found = [(0, cells_after_bytes(first))]
    offset = len(first)
    if others and not head(found[0][1])[0]:
        found.clear()
    for piece in others:
        found.append((offset, cells_after_bytes(piece)))
        offset += 1 + len(piece)
    return [(at, cells) for at, cells in found if cells.strip(b" ")] or found[-1:]


def frames_of_capture(path: str, data: bytes) -> tuple[dict[FrameId, list[Screen]], str]:
    """The frames of a capture by their ids, and what is said of the screens that are left out."""
    if not data:
        raise NoScreen("empty")
    screens = screens_in(data)
    if len(screens) > MOST_SCREENS:
        raise NoScreen("a capture has at most 65535 screens")
    by_name = len(screens) == 1 or not any(head(cells)[0] for _, cells in screens)
    if by_name:
        offset, cells = screens.pop()
        frames = frame_of(path, cells, offset)
    else:
        frames = dict[FrameId, list[Screen]]()
    notes = ""
    for offset, cells in screens:
        id, price = head(cells)
        if id:
            frames.setdefault(id, []).append(Screen(path, offset, price, cells))
        else:
            notes += f"{path}: at byte {offset}: row 0 shows no frame id; left out\n"
    return frames, notes


def one_of(screens: list[Screen]) -> tuple[Screen, list[Screen]]:
    """Of screens of a capture with one id the first that holds all the others, and those that it doesn't hold. If none
    does, it is the first, or the next that holds that one and isn't held by it.
    """
    kept = next((screen for screen in screens if all(map(screen.holds, screens))), None)
    if not kept:
        kept = screens[0]
        for screen in screens:
            if screen.holds(kept) and not kept.holds(screen):
                kept = screen
    return kept, [screen for screen in screens if not kept.holds(screen)]


def row_of(cells: bytes, number: int) -> bytes:
    return cells[ROW * number : ROW * (number + 1)].rstrip(b" ")


def rows_of(cells: bytes) -> list[bytes]:
    """Rows 1 to 22, up to the last that isn't blank."""
    rows = [row_of(cells, number) for number in range(1, 23)]
    while rows and not rows[-1]:
        rows.pop()
    return rows


def keys_shown(cells: bytes) -> str:
    """The digits that begin a word: a run of characters that show, no mosaics."""
    found: set[str] = set()
    for row in looks(cells)[1:23]:
        before = None
        for look in row:
            letter = look.holds if look.shown() is look and isinstance(look.holds, str) else None
            if letter and not before and letter in "0123456789":
                found.add(letter)
            before = letter
    return "".join(f" {digit}" for digit in sorted(found))


def comment(cells: bytes, number: int) -> str:
    """What a row shows; attributes and 7F are spaces."""
    row = "".join(chr(code) if code < 0x7F else " " for code in cells[ROW * number : ROW * (number + 1)]).rstrip(" ")
    return f"# {row}\n" if row else ""


def row_line(row: bytes) -> str:
    text = "".join(ESCAPED.get(code) or (chr(code) if code < 0x7F else f"\\u{code:04X}") for code in row)
    return f'    "{text}",\n'


def page_by(page: int, digit: str) -> int:
    """The page to which a digit leads by its number: without the last digit, or with this digit more."""
    return int((str(page)[:-1] or "0") if digit == "0" else f"{page}{digit}")


def routes_line(id: FrameId, keys: str, known: Container[FrameId]) -> str:
    """The routes of a frame. They are guessed if they lead to known frames on other pages."""
    pages = {digit: page_by(id.page, digit) for digit in keys.split()}
    pairs = [f"{key} = {page}" for key, page in pages.items() if page != id.page and FrameId(page, "a") in known]
    if pairs:
        return f"routes = {{ {', '.join(pairs)} }} # by its number; keys shown:{keys}\n"
    return "routes = { }" + (f" # keys shown:{keys}" if keys else "") + "\n"


def frame_text(id: FrameId, screen: Screen, leads_on: bool, known: Container[FrameId] = ()) -> str:
    cells = screen.cells
    return "".join(
        [
            "\n[[frame]]\n",
            comment(cells, 0),
            f'id = "{id}"\n',
            "" if screen.price is None else f"price = {screen.price}\n",
            "next = true\n" if leads_on else "",
            routes_line(id, keys_shown(cells), known),
            "rows = [\n" + "".join(map(row_line, rows_of(cells))) + "]\n",
            comment(cells, 23),
        ]
    )


def base_lines(frames: dict[FrameId, Screen], entry: int | None, guesses: bool = False) -> Answer:
    """The text of a base: the file of the first frame that ends too late has its line instead."""
    text = f"entry = {min(id.page for id in frames) if entry is None else entry}\n"
    for id in sorted(frames):
        text += frame_text(id, frames[id], id.following in frames, frames if guesses else ())
        if len(text) > MOST_BYTES:
            return Answer(3, "", f"{frames[id].path}: with this frame the base is longer than 16,777,216 bytes\n")
    return Answer(0, text)


class Reading:
    """What `import` reads of files, one after another."""

    def __init__(self, stream: bool) -> None:
        self.stream = stream
        self.frames: dict[FrameId, Screen] = {}
        self.twins: dict[FrameId, list[str]] = {}
        self.lines: list[str] = []
        self.notes = ""

    def frames_in(self, path: str, data: bytes | str) -> dict[FrameId, Screen]:
        """The frames of a file."""
        if isinstance(data, str):
            raise NoScreen(data)
        if len(data) > MOST_BYTES:
            raise NoScreen("more than 16,777,216 bytes")
        if not self.stream and is_text(data):
            frames = frames_of_text(path, data)
            for id, (kept, *others) in sorted(frames.items()):
                self.lines += [self.twin_line(id, other, kept) for other in others]
            return {id: screens[0] for id, screens in frames.items()}
        if not self.stream:
            return {id: screens[0] for id, screens in frame_of(path, cells_of(data)).items()}
        frames, notes = frames_of_capture(path, data)
        chosen = {id: one_of(frames[id]) for id in sorted(frames)}
        if len(chosen.keys() | self.frames.keys()) > MOST_LISTED:
            raise NoScreen("a base has at most 65535 frames")
        self.notes += notes
        for id, (kept, others) in chosen.items():
            at = f"frame {id} is at byte {kept.offset} too\n"
            self.lines += [f"{path}: at byte {other.offset}: {at}" for other in others]
        return {id: kept for id, (kept, _) in chosen.items()}

    def read(self, path: str, data: bytes | str) -> None:
        """Reads one file."""
        try:
            found = self.frames_in(path, data)
        except NoScreen as why:
            place = path if why.line is None else f"{path}:{why.line}"
            self.lines.append(f"{place}: {why}\n")
            return
        for id, screen in found.items():
            if len(self.frames) == MOST_LISTED and id not in self.frames:
                self.lines.append(f"{path}: a base has at most 65535 frames\n")
            elif id in self.frames:
                self.twins.setdefault(id, []).append(self.twin_line(id, screen, self.frames[id]))
            else:
                self.frames[id] = screen

    def twin_line(self, id: FrameId, screen: Screen, first: Screen) -> str:
        """What is said of a frame that an earlier file has too."""
        if not self.stream:
            return f"{screen.place}: frame {id} is in {first.place} too\n"
        other = f"frame {id} is in {first.path} at byte {first.offset} too"
        return f"{screen.path}: at byte {screen.offset}: {other}\n"


def files_in(folder: str, files: Sequence[tuple[str, bytes | str]]) -> list[tuple[str, bytes | str]]:
    """What a folder gives: its files, by name; last the reason why there are none, or not all."""
    found: list[tuple[str, bytes | str]] = []
    for path, data in sorted(files, key=lambda file: file[0]):
        if isinstance(data, bytes) and is_utf_8(path) and not is_hidden(path):
            found.append((path, data))
    if not all(is_utf_8(path) for path, _ in files):
        return [*found, (folder, "a file's name in it isn't UTF-8")]
    return found or [(folder, "no files in this folder")]


def is_utf_8(path: str) -> bool:
    """Python gives each byte that isn't a code point of its own that can't be encoded."""
    try:
        path.encode()
    except UnicodeEncodeError:
        return False
    return True


def is_hidden(path: str) -> bool:
    return path.rpartition("/")[2].startswith(".")


def imported(
    files: Iterable[tuple[str, bytes | str]],
    stream: bool = False,
    entry: int | None = None,
    skip_bad: bool = False,
    guesses: bool = False,
) -> Answer:
    """What `import` answers to files, each a path and its bytes or the reason why it can't be read."""
    reading = Reading(stream)
    for path, data in files:
        reading.read(path, data)
    lines = "".join(reading.lines + [line for id in sorted(reading.twins) for line in reading.twins[id]])
    answer = Answer(3, "", lines)
    if not lines:
        answer = base_lines(reading.frames, entry, guesses)
    elif skip_bad and reading.frames:
        others = base_lines(reading.frames, entry, guesses)
        answer = Answer(others.status or 1, others.stdout, lines + others.stderr)
    return answer._replace(stderr=reading.notes + answer.stderr)
