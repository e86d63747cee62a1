"""The HTML files that the program writes, taken apart by html5lib."""

from typing import Any, NamedTuple

from second_reading.html import Section, Way

# An element of html5lib's tree, which has no types.
Element = Any
FORBIDDEN = {"b", "i", "form", "link", "img", "base", "object", "embed", "iframe"}


class Page(NamedTuple):
    """What a file shows before its sections, its sections, and what is wrong with it as a whole."""

    name: str
    verdict: str
    asked: str
    faults: list[str]
    sections: list[Section]
    wrong: list[str]


def plain(element: Element) -> str:
    return str(element.tag).rpartition("}")[2] if isinstance(element.tag, str) else "comment"


def every(element: Element, name: str) -> list[Element]:
    """The elements of a name in an element."""
    return [inner for inner in element.iter() if plain(inner) == name]


def children(element: Element, name: str) -> list[Element]:
    return [child for child in element if plain(child) == name]


def text_of(element: Element) -> str:
    return "".join(element.itertext())


def touched(svg: Element) -> int | None:
    """The position of the cell that has a red frame, the last child of the picture, or None."""
    last = list(svg)[-1]
    if last.get("class") != "touched":
        return None
    return int(last.get("x")) // 12 + 40 * (int(last.get("y")) // 20)


def way(element: Element) -> Way:
    text, is_link = text_of(element), plain(element) == "a"
    assert not is_link or element.get("href") == f"#{text}"
    return Way("" if is_link else element.get("class"), element.get("data-key"), text)


def items(element: Element, look: str) -> list[str]:
    """The items of the lists of a class."""
    lists = [one for one in children(element, "ul") if one.get("class") == look]
    return [text_of(line) for one in lists for line in children(one, "li")]


def revealed(section: Element) -> str:
    """The text with what the frame conceals, if it does; the picture beside it has the same title and framed cell."""
    if not (divs := children(section, "div")):
        return ""
    (div,), (own,) = divs, children(section, "svg")
    svg, pre = div
    assert (div.get("class"), plain(svg), plain(pre)) == ("revealed", "svg", "pre")
    assert touched(svg) == touched(own) and text_of(svg[0]) == text_of(own[0])
    return text_of(pre)


def section(element: Element) -> Section:
    (svg,), (pre,) = children(element, "svg"), children(element, "pre")
    paragraphs = {child.get("class"): child for child in children(element, "p")}
    id = element.get("id")
    assert text_of(children(element, "h2")[0]) == text_of(children(svg, "title")[0]) == id
    ways = [way(child) for child in element.iter() if child.get("data-key") is not None]
    return Section(
        id,
        element.get("class") == "unreached",
        text_of(pre),
        revealed(element),
        text_of(paragraphs["price"]),
        text_of(paragraphs["group"]) if "group" in paragraphs else "",
        text_of(paragraphs["place"]),
        "over" in paragraphs,
        ways,
        items(element, "said"),
        items(element, "faults"),
        touched(svg),
    )


def page_of(text: str) -> Page:
    import html5lib

    parser = html5lib.HTMLParser()
    root = parser.parse(text)
    wrong = [f"parse error {code} at {at}" for at, code, _ in parser.errors]
    for element in root.iter():
        if plain(element) in FORBIDDEN | {"comment"}:
            wrong.append(f"an element {plain(element)}")
        names = [str(name) for name in element.attrib]
        wrong.extend(f"an attribute {name}" for name in names if name.startswith("on") or name == "src")
    (body,) = children(root, "body")
    (header,) = children(body, "header")
    (name,) = children(header, "h1")
    verdict = next(p for p in every(root, "p") if (p.get("class") or "").startswith("verdict"))
    return Page(
        text_of(name),
        text_of(verdict),
        text_of(children(header, "p")[-1]),
        items(body, "faults"),
        [section(one) for one in every(root, "section")],
        wrong,
    )
