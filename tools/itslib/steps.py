"""Steps through a session in the page docs/its.html as a reader does, and compares what the page shows with what the program answered it, and
that with the session's transcript."""

import json
import time
from typing import Any, Dict, List

from .browser import PATIENCE, Browser
from .session import Exchange, Wrong, exchanges, number

# What the page shows, as values
SHOWN = """(() => {
  const text = (within, what) => (within.querySelector(what) || {textContent: ""}).textContent;
  const all = (within, what) => [...within.querySelectorAll(what)];
  const box = byId("picture").getBoundingClientRect(), cursor = byId("cursor").getBoundingClientRect();
  return {
    moment: page.drawn, slider: Number(byId("slider").value), last: page.shown.moments.length - 1, hasPlace: Boolean(page.shown.moments[page.drawn].place),
    line: Number((document.querySelector("#lines [aria-current]") || {dataset: {line: 0}}).dataset.line),
    letter: text(document, "#lines .letters b"), wide: Math.max(document.documentElement.scrollWidth, window.innerWidth),
    cursor: byId("cursor").hidden ? "none" : cursor.left >= box.left && cursor.right <= box.right && cursor.top >= box.top &&
      cursor.bottom <= box.bottom ? "in sight" : "out of sight",
    jobs: all(document, ".job:not([hidden])").map(job => ({
      slot: job.dataset.slot, state: text(job, ".where-in"), frame: text(job, ".frame"),
      rows: all(job, "tbody tr").map(row => ({
        address: row.dataset.address || "", role: row.dataset.role || text(row, "th"),
        cells: all(row, "td").map(cell => text(cell, ".word") || cell.textContent)}))})),
    consoles: all(document, ".console").map(console => ({
      console: console.dataset.console, bytes: all(console, "dd").map(line => line.textContent)}))
  };
})()"""

# Waits for a while until a condition holds; gives whether it does
SETTLED = """new Promise(resolve => {
  const begun = performance.now(), look = () => {
    const holds = %s;
    if (holds || performance.now() - begun > 20000) resolve(Boolean(holds)); else setTimeout(look, 10);
  };
  look();
})"""
# What the page and its parts are called, and whether it has drawn the moment at which its reader is
NAMED = "its.then(parts => void Object.assign(globalThis, parts))"
DRAWN = "page.shown && page.shown.moments && !doing.isRunning && !page.isAsking && page.now && page.drawn === page.moment"
VIEWS = """(async () => {
  const views = [];
  for (let at = 0; at < page.shown.moments.length; at += 1) views.push(await program.ask("view", {at, watch: []}, "test"));
  return views;
})()"""
# Presses buttons one after the other, looks at all jobs if that is asked for, and gives what the page shows after each. Done in the page,
# because a question from outside takes long on a machine that has much else to do.
VISIT = """(async (steps, looks) => {
  const found = [], settled = async () => {
    for (const begun = performance.now(); !(%s);) {
      if (performance.now() - begun > 1000 * %d) throw new Error("a moment is not drawn");
      await new Promise(resolve => setTimeout(resolve, 1));
    }
  };
  for (const step of steps) {
    document.querySelector("[data-step=" + step + "]").click();
    await settled();
    if (looks) document.querySelectorAll(".job:not([hidden]) .look[aria-pressed=false]").forEach(one => one.isConnected && one.click());
    await settled();
    found.push(%s);
  }
  return found;
})(%s, %s)"""
AT_ONCE = 20         # so many buttons are pressed by one script
PRESS = """document.querySelectorAll("%s").forEach(one => one.isConnected && one.click())"""
ASK = """(card => { card.querySelector("input").value = "%s"; card.querySelector("form").requestSubmit(); })(
  document.querySelector(".job[data-slot='%s']"))"""
CLICK_LINES = """%s.map(line => {
  document.querySelector("#lines [data-line='" + line + "']").click();
  return page.moment;
})"""
# Clicks on the places of moments in the picture, and gives those moments from which the page is elsewhere then
CLICK_PLACES = """%s.filter(to => page.shown.moments[to].place).filter(to => {
  const [row, x, width, top] = page.shown.moments[to].place, sheet = byId("sheet"), box = sheet.getBoundingClientRect();
  sheet.dispatchEvent(new MouseEvent("click", {clientX: box.left + x + width / 2, clientY: box.top + top - TITLE + BAR / 2}));
  return JSON.stringify(page.shown.moments[page.moment].place) !== JSON.stringify(page.shown.moments[to].place);
})"""
KEYS = (("ArrowRight", False, "tick"), ("ArrowLeft", False, "tick-back"), ("ArrowRight", True, "star"), ("ArrowLeft", True, "star-back"),
        ("ArrowDown", False, "line"), ("ArrowUp", False, "line-back"))


def wait(browser: Browser, condition: str, what: str) -> None:
    """Waits until a condition holds in the page. A machine may have much else to do."""
    until = time.monotonic() + PATIENCE
    while not browser.value(SETTLED % condition):
        if time.monotonic() < until:
            continue
        raise Wrong("%s does not come about: %s; the page says: %s" % (what, condition[:200], browser.value("byId('alert').textContent")))


def word_in(job: dict, address: int) -> Any:
    """The word of a job that the program found at an address."""
    group = job["words"].get(str(address // 8))
    return group and group[address % 8]


class Steps:
    """The moments of a session in the page, and what the program answered at each."""

    def __init__(self, browser: Browser, name: str, session: str):
        self.browser, self.name, self.session = browser, name, session
        self.open()
        self.views = browser.value(VIEWS)
        self.last = len(self.views) - 1

    def open(self) -> None:
        """Puts the session into the editor."""
        self.browser.value("choose('session'); void setSession(%r, %s)" % (self.name, self.quoted()))
        self.settle()

    def quoted(self) -> str:
        """The session as a text of JavaScript."""
        return '"' + "".join(c if " " <= c <= "~" and c not in '"\\' else "\\u%04x" % ord(c) for c in self.session) + '"'

    def settle(self) -> None:
        """Waits until the page has drawn the moment at which it is."""
        wait(self.browser, DRAWN, self.name)

    def want(self, what: str, is_so: bool, at: int) -> None:
        """Complains if something is not as it has to be."""
        if not is_so:
            raise Wrong("%s, moment %d: %s" % (self.name, at, what))

    def press(self, step: str) -> None:
        """Presses a button."""
        self.browser.value("document.querySelector('[data-step=%s]').click()" % step)
        self.settle()

    def visit(self, presses: List[str], looks: bool) -> List[dict]:
        """Presses buttons one after the other, and gives what the page shows after each."""
        found: List[dict] = []
        for start in range(0, len(presses), AT_ONCE):
            some = json.dumps(presses[start:start + AT_ONCE])
            found += self.browser.value(VISIT % (DRAWN, PATIENCE, SHOWN, some, json.dumps(looks)))
        return found

    def compare(self, at: int, looks: bool) -> None:
        """What is shown has to be what the program answered at a moment."""
        self.compare_shown(self.browser.value(SHOWN), at, looks)

    def compare_shown(self, shown: dict, at: int, looks: bool) -> None:
        """The same of what was shown."""
        view = self.views[at]
        self.want("the page is at %s" % shown["moment"], shown["moment"] == shown["slider"] == at and shown["last"] == self.last, at)
        self.want("it shows line %s" % shown["line"], shown["line"] == view["line"], at)
        self.want("it shows the letter '%s'" % shown["letter"], shown["letter"] == view["letter"], at)
        self.want("the cursor is " + shown["cursor"], shown["cursor"] == ("in sight" if shown["hasPlace"] else "none"), at)
        self.want("it is %s wide" % shown["wide"], shown["wide"] <= self.browser.width, at)
        self.want("it shows other jobs", [job["slot"] for job in shown["jobs"]] == sorted(view["jobs"], key=number), at)
        for job in shown["jobs"]:
            self.compare_job(at, job, view["jobs"][job["slot"]], looks)
        consoles = {console["console"]: console["bytes"] for console in shown["consoles"]}
        self.want("it shows other consoles", set(consoles) == set(view["queues"]), at)
        for console, queue in view["queues"].items():
            for line, bytes_ in zip(consoles[console], queue):
                right = line.endswith("(" + " ".join(bytes_) + ")") if bytes_ else line == "nothing"
                self.want("console %s shows %s" % (console, line), right, at)

    def compare_job(self, at: int, shown: dict, job: dict, looks: bool) -> None:
        """What is shown of a job has to be what the program answered."""
        peek, call = job["peek"], job["call"]
        self.want("slot %s is shown as %s" % (shown["slot"], shown["state"]), shown["state"] == peek["state"], at)
        if peek["state"] != "USER":
            self.want("the steps left are not shown", "%d step" % peek["left"] in shown["frame"], at)
            self.want("the call's name is not shown", peek["call"] == "-" or name_of(peek["call"]) in shown["frame"], at)
        raw = {"pointer": peek["a"], "time": peek["a"], "count": peek["b"]}
        rows = {row["role"]: row for row in reversed(shown["rows"])}
        for argument in call["arguments"] if call else []:
            role = argument["role"]
            if "address" in argument and (looks or raw.get(role, "-") != "-"):
                self.want("no row of the %s" % role, role in rows, at)
                self.want("PEEK's %s is shown as %s" % (role, rows[role]["cells"][0]), raw.get(role, "-") in (rows[role]["cells"][0], "-"), at)
        held = peek["held"]
        self.want("the held byte", held == "-" or (rows.get("held byte") or rows["held word"])["cells"][0] == held, at)
        if looks:
            self.want("the PC found", rows["PC"]["cells"][1][:6] == job["state"]["pc"][6:], at)
            for row in shown["rows"]:
                word = word_in(job, number(row["address"])) if row["address"] else None
                self.want("word %s is shown as %s" % (row["address"], row["cells"][-1]), word is None or row["cells"][1] == word, at)

    def target(self, at: int, step: str) -> int:
        """The moment to which a step leads."""
        lines = [view["line"] for view in self.views]
        ends = [index for index in range(self.last + 1) if index == self.last or lines[index + 1] != lines[index]]
        stars = [index for index, view in enumerate(self.views) if view["letter"] == "*"]
        where = {"tick": list(range(self.last + 1)), "star": stars, "line": ends}[step.split("-")[0]]
        if step.endswith("-back"):
            return max([index for index in where if index < at], default=at)
        return min([index for index in where if index > at], default=at)

    def walk(self) -> None:
        """Steps through all moments, forward, and back looking at all jobs; then by lines and by steps of the machine."""
        for step, start in (("tick", 0), ("tick-back", self.last), ("line", 0), ("star-back", self.last)):
            looks, path = step != "tick", [start]
            while self.target(path[-1], step) != path[-1]:
                path.append(self.target(path[-1], step))
            presses = ["last" if start else "first"] + [step] * len(path)
            for at, shown in zip(path + path[-1:], self.visit(presses, looks)):
                self.compare_shown(shown, at, looks)

    def keys(self) -> None:
        """Presses each key, from the middle."""
        middle = self.last // 2
        for slot in {slot for view in self.views for slot in view["jobs"]}:
            self.browser.value("page.looking.add('%s')" % slot)
        for key, shift, step in KEYS:
            self.browser.value("go(%d); document.activeElement.blur()" % middle)
            self.settle()
            self.browser.press(key, shift)
            self.settle()
            self.compare(self.target(middle, step), True)
        for key, at in (("End", self.last), ("Home", 0)):
            self.browser.press(key)
            self.settle()
            self.compare(at, True)

    def words(self) -> None:
        """Asks for words of each job: one that is there, one of an absent page, and one that is no address."""
        self.press("last")
        self.browser.value(PRESS % ".job:not([hidden]) .look[aria-pressed=false]")
        for slot, job in self.views[self.last]["jobs"].items():
            absent = next(page for page in range(256) if page not in job["pages"]) * 1024 + 16
            for typed, wanted in {"17": (word_in(job, 0o17) or "")[:6], "%o" % absent: "NOPAGE", "8": "octal", "1000000": "octal"}.items():
                self.browser.value(ASK % (typed, slot))
                self.settle()
                card = self.browser.value("document.querySelector(\".job[data-slot='%s']\").textContent" % slot)
                self.want("word %s of slot %s: no %s" % (typed, slot, wanted), wanted in card, self.last)
        self.compare(self.last, True)
        self.browser.value(PRESS % ".job:not([hidden]) .drop")
        self.settle()
        self.compare(self.last, True)

    def clicks(self) -> None:
        """Clicks on lines and into the picture, and moves the slider."""
        lines = sorted({view["line"] for view in self.views} - {0})
        ends = [max(index for index, view in enumerate(self.views) if view["line"] <= line) for line in lines]
        for line, to, found in zip(lines, ends, self.browser.value(CLICK_LINES % json.dumps(lines))):
            self.want("a click on line %d" % line, found == to, to)
        self.settle()
        for wrong in self.browser.value(CLICK_PLACES % json.dumps(list(range(self.last + 1)))):
            self.want("a click into the picture goes elsewhere", False, wrong)
        self.settle()
        self.browser.value("byId('slider').value = %d; byId('slider').dispatchEvent(new Event('input'))" % (self.last // 2))
        self.settle()
        self.compare(self.last // 2, True)

    def check(self) -> None:
        """Uses the session as a reader does."""
        self.walk()
        self.keys()
        self.words()
        self.clicks()


def name_of(word: str) -> str:
    """The name that a word holds in SIXBIT."""
    return "".join(chr(32 + int(word[at:at + 2], 8)) for at in range(0, 12, 2)).rstrip()


class Recorded:
    """Compares what the page found at each moment with the session's transcript."""

    def __init__(self, name: str, session: str, transcript: str, views: List[dict]):
        told = exchanges(session, transcript)
        self.name, self.views = name, views
        self.told = {exchange.number: exchange for exchange in told}
        self.letters: Dict[int, str] = {}
        self.compared = 0

    def same(self, exchange: Exchange, what: str, page: object, transcript: object) -> None:
        """The page has to show what the transcript says."""
        self.compared += 1
        if page != transcript:
            raise Wrong("%s, line %d, %s: the page has %s of %s, the transcript %s" % (
                self.name, exchange.number, exchange.text, page, what, transcript))

    def check(self) -> int:
        """Compares all; how many values were compared."""
        for before, now in zip([self.views[0]] + self.views, self.views):
            exchange = self.told.get(now["line"])
            if exchange is not None and not exchange.reason:
                self.moment(exchange, before, now)
        for line, exchange in self.told.items():
            if exchange.kind in ("TICK", "RUN") and not exchange.reason:
                self.same(exchange, "letters", self.letters.get(line, ""), "".join(exchange.letters))
        return self.compared

    def moment(self, exchange: Exchange, before: dict, now: dict) -> None:
        """Compares one moment with the line of the session at which it is. What a line finds is there just before, too."""
        kind, words, line = exchange.kind, exchange.answered, exchange.number
        slot = "%o" % number(exchange.words[1]) if kind in ("PEEK", "EXAM", "STATE") else ""
        if kind in ("TICK", "RUN"):
            self.letters[line] = self.letters.get(line, "") + now["letter"]
        elif kind == "PEEK":
            peek = now["jobs"][slot]["peek"]
            shown = [peek["state"], peek["call"], "%o" % peek["left"], peek["a"], peek["b"], peek["held"]]
            self.same(exchange, "PEEK", shown, words[2:])
        elif kind == "EXAM":
            for at, word in enumerate(words[3:], number(words[2])):
                self.same(exchange, "word %o" % at, word_in(now["jobs"][slot], at), word)
                self.same(exchange, "word %o before" % at, word_in(before["jobs"][slot], at), word)
        elif kind == "STATE":
            for when, view in (("STATE", now), ("STATE before", before)):
                self.same(exchange, when, view["jobs"][slot]["stateLine"], " ".join(words[2:]))
        elif kind in ("TYPE", "DRAIN"):
            self.console(exchange, before, now)

    def console(self, exchange: Exchange, before: dict, now: dict) -> None:
        """Compares the bytes of a TYPE or a DRAIN line."""
        words, console = exchange.answered, "%o" % number(exchange.words[1])
        old, new = [view["queues"].get(console, [[], []]) for view in (before, now)]
        if exchange.kind == "DRAIN":
            self.same(exchange, "bytes drained", old[1][:len(old[1]) - len(new[1])], words[2:])
        else:
            typed = ["%o" % number(word) for word in exchange.words[2:]]
            self.same(exchange, "bytes typed", new[0], old[0] + typed[:len(typed) - number(words[2])])
