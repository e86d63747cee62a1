"""The fixed parts of the HTML file of a base, made from the folder page/ of crates/base_pages, or from another.

page.html has marks, as {{style}}: for the style and the script, for their checksums, and for the header and the
sections, which the program writes; style.css has one for the font. The style and the script are squeezed by rcssmin and
rjsmin (Debian's python3-rcssmin and python3-rjsmin); of the page itself the lines lose their indents.
"""

import base64
import hashlib
import re
from collections.abc import Callable
from pathlib import Path
from typing import NamedTuple

from harness.places import TOP
from harness.running import has_module

PAGE = TOP / "crates" / "base_pages" / "page"


class Parts(NamedTuple):
    """What is before the header, between it and the sections, and after them."""

    head: str
    middle: str
    foot: str


def can_squeeze() -> bool:
    """Whether the two modules are here."""
    return has_module("rcssmin") and has_module("rjsmin")


def font_of(path: Path) -> str:
    """The font of the letters, in base 64."""
    return base64.b64encode(path.read_bytes()).decode() if path.is_file() else ""


def squeezed(path: Path) -> str:
    """A style or a script, which can be between its tags."""
    import rcssmin
    import rjsmin

    squeeze: Callable[[str], str] = rcssmin.cssmin if path.suffix == ".css" else rjsmin.jsmin
    text = squeeze(path.read_text("utf-8")).replace("{{letters}}", font_of(path.with_name("letters.woff2")))
    if "</" in text or "<!--" in text or not text.isascii():
        raise ValueError(f"{path.name} has </ or <!--, or isn't ASCII")
    return text


def checksum(text: str) -> str:
    return "sha256-" + base64.b64encode(hashlib.sha256(text.encode()).digest()).decode()


def parts_of(folder: Path = PAGE) -> Parts:
    """The parts that the sources in a folder make."""
    page = re.sub(r"^ +", "", (folder / "page.html").read_text("utf-8"), flags=re.MULTILINE)
    for mark, name in ("style", "style.css"), ("script", "script.js"):
        text = squeezed(folder / name)
        page = page.replace(f"{{{{{mark}-sum}}}}", checksum(text)).replace(f"{{{{{mark}}}}}", text)
    return Parts(*re.split(r"{{(?:header|sections)}}\n", page))


def with_parts(file: str, parts: Parts) -> str:
    """A file of a base with other fixed parts."""
    header = file[file.index("<header") : file.index("<nav ")]
    sections = file.find("<section ")
    end = file.index("</main>")
    return parts.head + header + parts.middle + (file[sections:end] if sections >= 0 else "") + parts.foot
