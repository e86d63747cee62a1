"use strict";
(() => {
  const root = document.documentElement;
  const byId = (id) => document.getElementById(id);
  const name = document.querySelector("h1").textContent;
  const entry = document.querySelector("header").dataset.entry;

  // The views beside that of a caller; each has an address.
  const VIEWS = ["frames", "faults"];
  // The commands that a session knows; any other ends with # and is a page's number.
  const COMMANDS = ["*#", "*00", "*09"];
  // How many frames *# can go back.
  const REMEMBERED = 3;
  // A replay presses a key after this many milliseconds; one of more keys is over at once.
  const PAUSE = 450;
  const MOST_SHOWN = 60;

  // A frame, as its section says it.
  class Frame {
    constructor(section) {
      this.section = section;
      this.id = section.id;
    }

    static of(id) {
      const found = byId(id);
      return found && found.localName === "section" ? new Frame(found) : null;
    }

    static first() {
      const found = document.querySelector("section");
      return found ? new Frame(found) : null;
    }

    // Where sessions begin: at the entry frame, if it is in the file.
    static start() {
      return Frame.of(entry) || Frame.first();
    }

    get price() {
      return parseInt(this.section.querySelector(".price").textContent, 10);
    }

    // Whether it is painted over what is on the screen.
    get keeps() {
      return this.section.querySelector(".over") !== null;
    }

    get isUnreached() {
      return this.section.classList.contains("unreached");
    }

    // Whether ways say that callers can't open it.
    get isClosed() {
      if (!this.isUnreached) return false;
      return Array.from(document.querySelectorAll(".ways .closed")).some((way) => way.textContent === this.id);
    }

    // The group whose callers can open it, if it is closed to others.
    get group() {
      const group = this.section.querySelector(".group");
      return group ? group.textContent : "";
    }

    // Whether it has a picture with what it conceals.
    get conceals() {
      return this.section.querySelector(".revealed") !== null;
    }

    get lines() {
      return this.section.querySelector("pre").textContent;
    }

    // The first words below the top row that have a letter; mosaics are none.
    get title() {
      const words = this.lines.split("\n").slice(1).flatMap((line) => line.replace(/[^ -\u2190]+/g, "  ").split(/ {2,}/));
      return (words.find((word) => word.trim().length >= 3 && /[a-z]/i.test(word)) || "").trim();
    }

    get links() {
      return this.section.querySelectorAll("a[data-key]");
    }

    way(key) {
      return Array.from(this.section.querySelectorAll("[data-key]")).find((way) => way.dataset.key === key);
    }

    // Names what a reader of the page looks for.
    label() {
      const heading = this.section.querySelector("h2");
      if (heading.dataset.title !== undefined) return;
      heading.dataset.title = this.title;
      for (const svg of this.section.querySelectorAll("svg")) svg.setAttribute("aria-hidden", "true");
    }

    labelWays() {
      for (const link of this.links) link.dataset.title = Frame.of(link.textContent).title;
    }
  }

  // The shortest keys from the entry frame: of each frame that keys lead to the frame before it, and the key there.
  const steps = (() => {
    let found = null;
    return () => {
      if (found) return found;
      found = new Map();
      const begin = Frame.of(entry);
      if (!begin || begin.isUnreached) return found;
      found.set(entry, null);
      for (const id of found.keys()) {
        for (const link of Frame.of(id).links) {
          if (!found.has(link.textContent)) found.set(link.textContent, { from: id, key: link.dataset.key });
        }
      }
      return found;
    };
  })();
  const keysTo = (id) => {
    if (!steps().has(id)) return null;
    const keys = [];
    for (let step = steps().get(id); step; step = steps().get(step.from)) keys.unshift(step.key);
    return keys;
  };

  // A caller's session: where it is, what it has cost, what was typed, and what is said of it.
  class Session {
    constructor(id) {
      this.at = id;
      this.remembered = [];
      this.left = null;
      this.sum = Frame.of(id).price;
      this.keys = "";
      this.command = "";
      this.offer = "";
      this.shut = "";
      this.faithful = true;
      this.say(`SHOWN ${id} ${this.sum}`);
    }

    // A session at a frame, after the shortest keys that lead there.
    static to(id) {
      const keys = keysTo(id);
      if (keys) return keys.reduce((session, key) => session.press(key), new Session(entry));
      const session = new Session(id);
      session.keys = id === entry ? "" : null;
      if (session.frame.isClosed) {
        session.sum = 0;
        session.close(id);
      }
      return session;
    }

    // The session that an earlier visit left, if its frames are all there.
    static of(state) {
      const ids = state ? [state.at, ...state.remembered] : [null];
      return ids.every((id) => Frame.of(id)) ? Object.assign(Object.create(Session.prototype), state) : null;
    }

    get frame() {
      return Frame.of(this.at);
    }

    say(reply, kind = "ok") {
      this.reply = reply;
      this.kind = kind;
      return this;
    }

    // Says that a frame is closed.
    close(id) {
      this.shut = id;
      return this.say(`CLOSED ${id}`, "no");
    }

    // The group of the frame that is said to be closed, if the file has it.
    get club() {
      const frame = Frame.of(this.shut);
      return frame ? frame.group : "";
    }

    // The picture is that of the shortest keys. After other keys a frame that keeps what is on the screen may look otherwise.
    arrive(id) {
      const next = Frame.of(id);
      const step = steps().get(id);
      this.faithful = !next.keeps || (this.faithful && Boolean(step) && step.from === this.at);
      this.sum += next.price;
      this.at = id;
      return this.say(`SHOWN ${id} ${next.price}`);
    }

    follow(key) {
      const way = this.frame.way(key);
      if (!way) return this.say("NOTOFFERED", "no");
      const to = way.textContent;
      if (way.localName === "a") {
        this.remembered = [this.at, ...this.remembered].slice(0, REMEMBERED);
        return this.arrive(to);
      }
      if (way.className === "missing") return this.say(`MISSING ${to}`, "bad");
      if (way.className === "closed") return this.close(to);
      if (way.className === "elsewhere") return this.say(`${to} is not in this file`, "no");
      this.left = to;
      return this.say(`GONE ${to}`, "no");
    }

    back() {
      if (!this.remembered.length) return this.say("NOTOFFERED", "no");
      return this.arrive(this.remembered.shift());
    }

    redraw() {
      if (this.frame.keeps) this.faithful = false;
      return this.say(`AGAIN ${this.at}`);
    }

    update() {
      const { price, keeps } = this.frame;
      this.sum += price;
      if (keeps) this.faithful = false;
      return this.say(`SHOWN ${this.at} ${price}`);
    }

    // A key: a digit, # or a command.
    press(key) {
      this.offer = "";
      this.shut = "";
      if (this.keys !== null) this.keys += key;
      if (this.left !== null) return this.say("NOTOFFERED", "no");
      if (key === "*#") return this.back();
      if (key === "*00") return this.redraw();
      if (key === "*09") return this.update();
      return this.follow(key);
    }

    // A key of the pad: * begins a command, which is kept until it is whole.
    type(key) {
      if (key === "*") this.command = key;
      else if (!this.command) this.press(key);
      else {
        this.command += key;
        if (COMMANDS.includes(this.command) || key === "#") this.obey();
      }
      return this;
    }

    obey() {
      const command = this.command;
      this.command = "";
      if (COMMANDS.includes(command)) return this.press(command);
      const id = `${command.slice(1, -1)}a`;
      this.shut = "";
      this.offer = Frame.of(id) ? id : "";
      return this.say("page numbers aren't part of this file's walk", "no");
    }

    get shownKeys() {
      if (this.keys !== null) return this.keys || "none yet";
      return this.frame.isUnreached ? "no keys lead here" : "the way here isn't in this file";
    }

    get note() {
      if (this.faithful) return "";
      return "After these keys the screen looks otherwise: this frame is painted over what was there. The picture shows it after the shortest keys.";
    }
  }

  // Without frames there is nothing to show or to press.
  if (!Frame.first()) return;

  let session = null;
  let timer = 0;
  let view = "caller";

  // What the page shows.

  const put = (id, text) => {
    const element = byId(id);
    if (element.textContent !== text) element.textContent = text;
  };

  // While it is held, the picture is the one with what the frame conceals.
  const reveal = (isHeld) => {
    const button = byId("reveal");
    const isOn = isHeld && !button.hidden;
    root.classList.toggle("bare", isOn);
    button.setAttribute("aria-pressed", isOn);
  };

  const drawFrame = () => {
    for (const old of document.querySelectorAll("section.at")) old.classList.remove("at", "dim");
    const { frame } = session;
    frame.label();
    frame.labelWays();
    frame.section.classList.add("at");
    frame.section.classList.toggle("dim", frame.isClosed);
    root.classList.toggle("gone", session.left !== null);
    byId("reveal").hidden = !frame.conceals || session.left !== null;
    reveal(false);
    put("page", session.left === null ? "" : `page ${session.left}: another provider`);
  };

  const drawReply = () => {
    put("reply", session.command || session.reply);
    byId("reply").className = session.command ? "typed" : session.kind;
    put("club", session.command ? "" : session.club);
    byId("offer").href = `#${session.offer}`;
    put("offer", session.offer && !session.command ? `open ${session.offer}` : "");
  };

  const heading = () => {
    if (view !== "caller") return view === "frames" ? "Frames" : "Faults";
    return session.left === null ? session.at : `page ${session.left}`;
  };

  const draw = () => {
    root.dataset.view = view;
    for (const link of document.querySelectorAll(".views a")) {
      if (link.dataset.view === view) link.setAttribute("aria-current", "page");
      else link.removeAttribute("aria-current");
    }
    if (view === "frames") arrange();
    if (view === "faults") list();
    drawFrame();
    drawReply();
    put("sum", `${session.sum}p`);
    put("keys", session.shownKeys);
    put("note", session.note);
    document.title = `${heading()} - ${name}`;
  };

  // The frames, page by page.
  const arrange = () => {
    if (root.classList.contains("arranged")) return;
    root.classList.add("arranged");
    let page = "";
    for (const section of document.querySelectorAll("section")) {
      const frame = new Frame(section);
      const number = frame.id.slice(0, -1);
      section.classList.toggle("opens", number !== page);
      section.classList.toggle("faulty", section.querySelector(".faults") !== null);
      page = number;
      frame.label();
      section.tabIndex = 0;
      section.setAttribute("role", "link");
      section.setAttribute("aria-label", `${frame.id} ${frame.title}`);
    }
    search();
  };

  // Hides the frames whose ids and texts lack a word of the search.
  const search = () => {
    const words = byId("search").value.toLowerCase().split(/\s+/);
    const sections = Array.from(document.querySelectorAll("section"));
    const shown = sections.filter((section) => {
      const text = `${section.id} ${new Frame(section).lines}`.toLowerCase();
      section.classList.toggle("out", !words.every((word) => text.includes(word)));
      return !section.classList.contains("out");
    });
    const all = `${sections.length} frame${sections.length === 1 ? "" : "s"}`;
    put("found", shown.length === sections.length ? all : `${shown.length} of ${all}`);
  };

  const made = (tag, kind, text) => {
    const element = document.createElement(tag);
    element.className = kind;
    element.textContent = text;
    return element;
  };

  // A fault: what lint says of it, and the audit's line. One that keys lead to is a link that presses them.
  const lineOf = (fault) => {
    const keys = / SCRIPT ([0-9#*-]+)$/.exec(fault.textContent);
    const section = fault.closest("section");
    const line = made(keys && section && Frame.of(entry) ? "a" : "span", "line", "");
    if (section) {
      const number = Array.from(fault.parentNode.children).indexOf(fault);
      line.append(made("span", "sentence", section.querySelectorAll(".said li")[number].textContent));
    }
    line.append(made("code", "", fault.textContent));
    if (section) line.append(made("span", "where", section.querySelector(".place").textContent));
    if (line.localName === "a") {
      line.href = `#${section.id}`;
      line.dataset.script = keys[1] === "-" ? "" : keys[1];
      line.append(made("span", "go", line.dataset.script ? `press ${line.dataset.script}` : "open"));
    }
    const item = document.createElement("li");
    item.append(line);
    return item;
  };

  // The lines of the audit.
  const list = () => {
    const lines = document.querySelector(".lines");
    if (lines.childElementCount) return;
    lines.append(...Array.from(document.querySelectorAll("ul.faults li"), lineOf));
    if (lines.childElementCount) return;
    const none = document.createElement("li");
    none.append(made("span", "line none", "No faults."));
    lines.append(none);
  };

  // What a reader does.

  const stop = () => {
    clearInterval(timer);
    timer = 0;
  };

  // The address is that of the view, or of the frame; a page from a file may refuse a new one.
  const remember = (isNew) => {
    const address = `#${view === "caller" ? session.at : view}`;
    try {
      history[isNew ? "pushState" : "replaceState"]({ view, session: { ...session } }, "", address);
    } catch (fault) {
      // the page works without a history
    }
  };

  const typed = (keys) => {
    const { at } = session;
    for (const key of keys) session.type(key);
    draw();
    remember(session.at !== at);
  };

  const begin = (id, isNew) => {
    stop();
    view = "caller";
    session = Session.to(id);
    draw();
    remember(isNew);
    scrollTo(0, 0);
  };

  const turnTo = (next) => {
    stop();
    if (next === view) return;
    view = next;
    draw();
    remember(true);
    scrollTo(0, 0);
  };

  const open = (id) => {
    if (session.at === id && session.left === null) turnTo("caller");
    else begin(id, true);
  };

  const replay = (script) => {
    begin(entry, true);
    const keys = Array.from(script);
    if (keys.length > MOST_SHOWN || matchMedia("(prefers-reduced-motion: reduce)").matches) {
      typed(keys);
      return;
    }
    timer = setInterval(() => {
      if (keys.length) typed(keys.shift());
      else stop();
    }, PAUSE);
  };

  const leaveFull = () => {
    root.classList.remove("full");
    if (document.fullscreenElement) document.exitFullscreen();
  };

  const turnFull = () => {
    if (root.classList.contains("full")) {
      leaveFull();
      return;
    }
    root.classList.add("full");
    if (root.requestFullscreen) root.requestFullscreen().catch(() => {});
  };

  // What the next copy puts on the clipboard, in place of what is selected.
  let copied = "";
  const copy = () => {
    const { lines } = session.frame;
    const done = () => {
      put("copy", "Copied");
      setTimeout(() => put("copy", "Copy as text"), 1500);
    };
    const instead = () => {
      copied = lines;
      if (document.execCommand("copy")) done();
      copied = "";
    };
    if (navigator.clipboard) navigator.clipboard.writeText(lines).then(done, instead);
    else instead();
  };

  // The lines of what is selected in a picture, in which each word is a text of its own.
  const selected = () => {
    const range = getSelection().rangeCount ? getSelection().getRangeAt(0) : null;
    const within = range && range.commonAncestorContainer;
    const svg = within && (within.closest ? within : within.parentNode).closest("section > svg");
    if (!svg || range.collapsed) return "";
    const rows = [];
    for (const text of svg.querySelectorAll("text")) {
      if (!range.intersectsNode(text)) continue;
      const node = text.firstChild;
      const from = node === range.startContainer ? range.startOffset : 0;
      const to = node === range.endContainer ? range.endOffset : node.data.length;
      const row = (text.getAttribute("y") - 16) / (text.hasAttribute("transform") ? 10 : 20);
      rows[row] = (rows[row] || "").padEnd(text.getAttribute("x") / 12 + from) + node.data.slice(from, to);
    }
    return Array.from(rows.slice(rows.findIndex((row) => row)), (row) => row || "").join("\n");
  };

  document.addEventListener("copy", (event) => {
    const text = copied || selected();
    if (!text) return;
    event.preventDefault();
    event.clipboardData.setData("text/plain", text);
  });

  const pressPad = (button, byMouse) => {
    stop();
    // else Enter would press the button once more, and not #
    if (byMouse) button.blur();
    typed(button.value);
  };

  document.addEventListener("click", (event) => {
    if (event.ctrlKey || event.metaKey || event.shiftKey) return;
    const clicked = (selector) => event.target.closest(selector);
    const button = clicked(".pad button");
    const link = clicked("a");
    const way = clicked("[data-key]");
    const section = clicked("section");
    if (button) pressPad(button, event.detail > 0);
    else if (clicked("#again")) begin(Frame.start().id, true);
    else if (clicked("#copy")) copy();
    else if (clicked("#full")) turnFull();
    else if (clicked("#reveal") && event.detail === 0) reveal(!root.classList.contains("bare"));
    else if (view === "frames" && section) {
      event.preventDefault();
      open(section.id);
    } else if (way) {
      event.preventDefault();
      stop();
      session.command = "";
      typed(way.dataset.key);
    } else if (link) {
      event.preventDefault();
      if (link.dataset.view) turnTo(link.dataset.view);
      else if (link.id === "offer") begin(link.hash.slice(1), true);
      else replay(link.dataset.script);
    }
  });

  const escape = () => {
    stop();
    leaveFull();
    session.command = "";
    if (view === "caller") draw();
    else turnTo("caller");
  };

  // Takes back the last key of a command; without one it is *#.
  const erase = () => {
    stop();
    if (!session.command) {
      typed("*#");
      return;
    }
    session.command = session.command.slice(0, -1);
    draw();
  };

  const inCaller = (key, on) => {
    if (key === "r" || ([" ", "Enter"].includes(key) && on.id === "reveal")) reveal(true);
    else if (/^[0-9#*]$/.test(key)) {
      stop();
      typed(key);
    } else if (key === "Enter" && !on.closest("a, button")) {
      stop();
      typed("#");
    } else if (key === "Backspace") erase();
    else if (key === "f") turnFull();
    else return false;
    return true;
  };

  const inFrames = (key, on) => {
    const section = on.closest("section");
    if (key === "Enter" && section) open(section.id);
    else if (key === "Enter" && on.id === "search") {
      const found = document.querySelector("section:not(.out)");
      if (found) open(found.id);
    } else if (key === "/" && on.id !== "search") byId("search").focus();
    else return false;
    return true;
  };

  document.addEventListener("keydown", (event) => {
    if (event.ctrlKey || event.metaKey || event.altKey) return;
    const { key, target } = event;
    const act = { caller: inCaller, frames: inFrames }[view];
    if (key === "Escape") escape();
    else if (act && act(key, target)) event.preventDefault();
  });
  document.addEventListener("keyup", (event) => {
    if (!["r", "R", " ", "Enter"].includes(event.key)) return;
    reveal(false);
    if (event.target.id === "reveal") event.preventDefault();
  });
  byId("reveal").addEventListener("pointerdown", (event) => {
    if (event.button !== 0) return;
    event.currentTarget.setPointerCapture(event.pointerId);
    reveal(true);
  });
  byId("reveal").addEventListener("lostpointercapture", (event) => {
    event.currentTarget.blur();
    reveal(false);
  });
  byId("reveal").addEventListener("contextmenu", (event) => event.preventDefault());
  addEventListener("blur", () => reveal(false));
  addEventListener("beforeprint", () => {
    for (const section of document.querySelectorAll("section")) {
      const frame = new Frame(section);
      frame.label();
      frame.labelWays();
    }
  });
  document.addEventListener("fullscreenchange", () => {
    if (!document.fullscreenElement) root.classList.remove("full");
  });
  byId("search").addEventListener("input", search);

  // Goes where the address says, with the session of an earlier visit if it was there.
  const visit = (state) => {
    const address = location.hash.slice(1);
    const isView = ["", "caller", ...VIEWS].includes(address);
    const earlier = Session.of(state && state.session);
    view = VIEWS.includes(address) ? address : "caller";
    if (earlier && (isView || address === earlier.at)) session = earlier;
    else if (Frame.of(address)) session = Session.to(address);
    else session = session || Session.to(Frame.start().id);
    if (!isView && !Frame.of(address)) session.say(`no frame ${address} in this file`, "bad");
  };

  addEventListener("popstate", (event) => {
    stop();
    visit(event.state);
    draw();
    remember(false);
  });

  const faults = document.querySelectorAll("ul.faults li").length;
  root.classList.add("js");
  put("count", faults ? ` ${faults}` : "");
  const unopened = document.querySelector("body > .faults li");
  const named = Frame.of(location.hash.slice(1));
  visit(history.state);
  if (unopened && !named) session.say(unopened.textContent, "bad");
  put("again", `Back to ${Frame.start().id}`);
  remember(false);
  draw();
})();
