"""Chromium, as tests/browser drives it: what a reader does there, and what is seen. It needs Debian's chromium,
chromium-driver and python3-selenium.
"""

import base64
import json
import re
import shutil
from collections.abc import Iterator
from contextlib import contextmanager
from pathlib import Path
from typing import Any, NamedTuple

# The words of a list of keys.
WORD = re.compile(r"\*#|\*00|\*09|[0-9#]")


class Beside(NamedTuple):
    """What is beside a screen: each way by its key, its text, the words after it and its class."""

    id: str
    title: str
    price: str
    group: str
    place: str
    ways: list[tuple[str, str, str, str]]
    said: list[str]
    faults: list[str]


class Tile(NamedTuple):
    id: str
    title: str
    price: str
    unreached: bool
    faulty: bool


# Whether an element is seen; each script has it.
IS_SEEN = """
    const seen = (one) => one.checkVisibility({ opacityProperty: true, visibilityProperty: true });"""
SEEN = """
    const text = (id) => {
        const one = document.getElementById(id);
        return seen(one) ? one.textContent : "";
    };
    return {
        at: document.querySelector("section.at").id,
        reply: text("reply"),
        kind: document.getElementById("reply").className,
        sum: text("sum"),
        keys: text("keys"),
        note: text("note"),
        away: text("page"),
        title: document.title,
    };"""
SHOWN = """
    const after = (one, which = "::after") => {
        const { content } = getComputedStyle(one, which);
        const parts = content.match(/"(?:[^"\\\\\\\\]|\\\\\\\\.)*"/g) || [];
        return parts.map((part) => part.slice(1, -1).replace(/\\\\\\\\(.)/g, "$1")).join("");
    };
    const text = (one) => one && seen(one) && one.getBoundingClientRect().height ? one.textContent : "";
"""
BESIDE = (
    SHOWN
    + """
    const at = document.querySelector("section.at");
    const heading = at.querySelector("h2");
    const ways = Array.from(at.querySelectorAll("[data-key]")).filter(text);
    return [
        text(heading),
        after(heading),
        text(at.querySelector(".price")),
        text(at.querySelector(".group")) || "",
        text(at.querySelector(".place")) || "",
        ways.map((way) => [after(way, "::before"), text(way), after(way), way.className]),
        Array.from(at.querySelectorAll(".said li"), text),
        Array.from(at.querySelectorAll(".faults li"), text),
    ];"""
)
TILES = (
    SHOWN
    + """
    const hue = (one) => getComputedStyle(one);
    return Array.from(document.querySelectorAll("section")).filter((one) => seen(one)).map((one) => [
        text(one.querySelector("h2")),
        after(one.querySelector("h2")),
        text(one.querySelector(".price")),
        hue(one).borderStyle === "dashed",
        hue(one).backgroundColor !== hue(document.querySelector("#search")).backgroundColor,
    ]);"""
)
CONTRASTS = (
    SHOWN
    + """
    const canvas = document.createElement("canvas").getContext("2d", { willReadFrequently: true });
    const parts = (colour) => {
        canvas.clearRect(0, 0, 1, 1);
        canvas.fillStyle = colour;
        canvas.fillRect(0, 0, 1, 1);
        return Array.from(canvas.getImageData(0, 0, 1, 1).data);
    };
    const behind = (one) => {
        for (let at = one; at; at = at.parentElement) {
            const colour = parts(getComputedStyle(at).backgroundColor);
            if (colour[3] === 255) return colour;
        }
        return [255, 255, 255, 255];
    };
    const light = (colour) => {
        const [r, g, b] = colour.map((part) => {
            const one = part / 255;
            return one <= 0.03928 ? one / 12.92 : ((one + 0.055) / 1.055) ** 2.4;
        });
        return 0.2126 * r + 0.7152 * g + 0.0722 * b;
    };
    const found = [];
    for (const one of document.querySelectorAll("body, body *")) {
        if (one.closest("svg, pre, script") || !seen(one)) continue;
        const own = Array.from(one.childNodes).some((node) => node.nodeType === 3 && node.data.trim());
        for (const which of [own ? null : "", "::before", "::after"]) {
            if (which === "" || (which && !after(one, which).trim())) continue;
            const [a, b] = [light(parts(getComputedStyle(one, which).color)), light(behind(one))].sort((x, y) => y - x);
            const name = `${one.localName}.${one.className}${which || ""}`;
            found.push([`${name} ${one.textContent.slice(0, 20)}`, (a + 0.05) / (b + 0.05)]);
        }
    }
    return found;"""
)
COLOURS = """
    const names = {};
    for (const name of ["soft", "bad", "link"]) {
        const one = document.createElement("i");
        one.style.color = `var(--${name})`;
        document.body.append(one);
        names[getComputedStyle(one).color] = name;
        one.remove();
    }
    const found = {};
    for (const way of document.querySelectorAll(".ways span")) {
        found[way.className] = names[getComputedStyle(way).color];
    }
    return found;"""


class Browser:
    """A window. What is typed goes to what has the focus."""

    def __init__(self, web: Any) -> None:
        self.web = web

    def run(self, script: str) -> Any:
        return self.web.execute_script(IS_SEEN + script)

    def run_later(self, script: str) -> Any:
        return self.web.execute_async_script(script)

    # What a reader does

    def open(self, uri: str) -> None:
        """Opens a page anew."""
        self.web.get("about:blank")
        self.web.get(uri)

    def back(self) -> None:
        self.travel("history.back()")

    def travel(self, script: str) -> None:
        """Runs what changes the address, and waits until the page knows."""
        self.run_later(
            f"""
            const done = arguments[0];
            addEventListener("popstate", () => setTimeout(done, 0), {{ once: true }});
            {script};"""
        )

    def refresh(self) -> None:
        self.web.refresh()

    def type(self, keys: str) -> None:
        from selenium.webdriver.common.action_chains import ActionChains

        chains: Any = ActionChains
        if keys:
            chains(self.web).send_keys(keys).perform()

    def press(self, *names: str) -> None:
        """Presses a key by its name, the ones before it held down."""
        from selenium.webdriver.common.action_chains import ActionChains
        from selenium.webdriver.common.keys import Keys

        codes = {"Enter": Keys.ENTER, "Backspace": Keys.BACKSPACE, "Escape": Keys.ESCAPE, "Control": Keys.CONTROL}
        codes["Tab"] = Keys.TAB
        *held, last = (codes.get(name, name) for name in names)
        chains: Any = ActionChains
        chain = chains(self.web)
        for code in held:
            chain.key_down(code)
        chain.send_keys(last)
        for code in held:
            chain.key_up(code)
        chain.perform()

    def click(self, selector: str) -> None:
        self.web.find_element("css selector", selector).click()

    @contextmanager
    def held(self, what: str) -> Iterator[None]:
        """Holds a key, or the mouse over an element if it is a selector."""
        from selenium.webdriver.common.action_chains import ActionChains
        from selenium.webdriver.common.keys import Keys

        chains: Any = ActionChains
        key = {"Enter": Keys.ENTER, "Space": Keys.SPACE}.get(what, what)
        if what.startswith("#"):
            chains(self.web).click_and_hold(self.web.find_element("css selector", what)).perform()
        else:
            chains(self.web).key_down(key).perform()
        yield
        chain = chains(self.web)
        (chain.release() if what.startswith("#") else chain.key_up(key)).perform()

    def click_keys(self, words: list[str]) -> None:
        """Clicks the keys of words on the pad."""
        for key in "".join(words):
            self.click(f'.pad button[value="{key}"]')

    @staticmethod
    def words_in(keys: str) -> list[str]:
        """The words of a list of keys."""
        return WORD.findall(keys)

    # What is seen

    def seen(self) -> dict[str, object]:
        """What is seen of a session."""
        return dict(self.run(SEEN))

    def beside(self) -> Beside:
        id, title, price, group, place, ways, said, faults = self.run(BESIDE)
        every = [(key, text, word, look) for key, text, word, look in ways]
        return Beside(id, title.strip(), price, group, place, every, said, faults)

    def tiles(self) -> list[Tile]:
        return [Tile(*tile) for tile in self.run(TILES)]

    def contrasts(self) -> list[tuple[str, float]]:
        """The words that are seen, each with its contrast."""
        return [(what, ratio) for what, ratio in self.run(CONTRASTS)]

    def colours(self) -> dict[str, str]:
        """The name of the colour of each class of ways."""
        return dict(self.run(COLOURS))

    @staticmethod
    def is_red(colour: str) -> bool:
        red, green, blue = map(int, re.findall(r"\d+", colour)[:3])
        return red > 2 * green and red > 2 * blue

    def text(self, selector: str) -> str:
        return str(self.run(f"return document.querySelector({json.dumps(selector)}).textContent"))

    def texts(self, selector: str) -> list[str]:
        """The texts of those that are seen."""
        every = f"Array.from(document.querySelectorAll({json.dumps(selector)}))"
        return list(self.run(f"return {every}.filter((one) => seen(one)).map((one) => one.textContent)"))

    def displayed(self, selector: str) -> list[str]:
        """The ids of those that are seen, also without scripts."""
        return [
            one.get_attribute("id") for one in self.web.find_elements("css selector", selector) if one.is_displayed()
        ]

    def view(self) -> str:
        return str(self.run("return document.documentElement.dataset.view"))

    def address(self) -> str:
        return str(self.run("return location.hash"))

    def picture(self, selector: str) -> bytes:
        return bytes(self.web.find_element("css selector", selector).screenshot_as_png)

    def requests(self) -> tuple[list[str], list[str]]:
        """The addresses that were asked for, and what the console says."""
        asked = []
        for entry in self.web.get_log("performance"):
            message = json.loads(entry["message"])["message"]
            if message["method"] == "Network.requestWillBeSent":
                asked.append(message["params"]["request"]["url"].partition("#")[0])
        return asked, [entry["message"] for entry in self.web.get_log("browser")]

    # How it is shown

    def command(self, name: str, **words: object) -> Any:
        return self.web.execute_cdp_cmd(name, words)

    def size(self, width: int, height: int) -> None:
        self.command(
            "Emulation.setDeviceMetricsOverride", width=width, height=height, deviceScaleFactor=1, mobile=width < 700
        )

    def media(self, media: str = "", scheme: str = "light") -> None:
        features = [{"name": "prefers-color-scheme", "value": scheme}]
        self.command("Emulation.setEmulatedMedia", media=media, features=features)

    def still(self, is_still: bool = True) -> None:
        """For a reader who wants less motion, or not."""
        value = "reduce" if is_still else "no-preference"
        self.command("Emulation.setEmulatedMedia", features=[{"name": "prefers-reduced-motion", "value": value}])

    def pages_of_print(self) -> int:
        """How many pages of A4 a print has."""
        printed = self.command("Page.printToPDF", paperWidth=8.27, paperHeight=11.69, preferCSSPageSize=True)
        return len(re.findall(rb"/Type\s*/Page\b", base64.b64decode(printed["data"])))


@contextmanager
def driver(folder: Path, scripts: bool = True) -> Iterator[Browser]:
    """A window of its own, which keeps its profile in a folder."""
    from selenium import webdriver
    from selenium.webdriver.chrome.service import Service

    options: Any = webdriver.ChromeOptions()
    options.binary_location = shutil.which("chromium") or ""
    for word in (
        "--headless=new",
        "--no-sandbox",
        "--disable-gpu",
        "--hide-scrollbars",
        f"--user-data-dir={folder}",
        "--window-size=1280,1000",
    ):
        options.add_argument(word)
    options.set_capability("goog:loggingPrefs", {"browser": "ALL", "performance": "ALL"})
    if not scripts:
        options.add_experimental_option("prefs", {"profile.managed_default_content_settings.javascript": 2})
    web: Any = webdriver.Chrome(options=options, service=Service(shutil.which("chromedriver") or ""))
    try:
        yield Browser(web)
    finally:
        web.quit()
