"""What a new reader of the page docs/its.html finds: the first view, the tour, that nothing is lost, and what each tab says. Each point is
checked by the page's own controls."""

import json
import os
import subprocess
from typing import List

from .browser import Browser
from .command import text_of
from .program import TOP
from .session import Wrong
from .steps import DRAWN, NAMED, wait

SIZES = ((1440, 900), (1024, 768), (390, 844))
FIRST = 900          # pixels from the top in which the idea is
# The places of what the first view has to show: of the two columns of a stale word, of the sentence and of its button
IDEA = """(() => {
  const box = one => { const {left, right, top, bottom} = one.getBoundingClientRect(); return [left, right, top, bottom].map(Math.round); };
  const stale = document.querySelector(".word.stale"), restored = document.querySelector(".word.restored");
  return {stale: box(stale), restored: box(restored), said: box(byId("tour-said")), next: box(byId("tour-next")),
          looks: document.querySelector(".look").getAttribute("aria-pressed"), state: document.querySelector(".where-in").textContent,
          low: byId("panel-session").querySelector(".controls").getBoundingClientRect().top,
          sentences: byId("tour-said").textContent.split(/[.!?]( |$)/).filter(one => one && one.trim()).length};
})()"""
CUT = """[...document.querySelectorAll("select")].filter(one => one.offsetWidth && one.scrollWidth > one.clientWidth + 1).map(one => one.id).join(" ")"""
SMALL = """[...document.querySelectorAll("select, input[type=text], textarea")].filter(one => parseFloat(getComputedStyle(one).fontSize) < 16)
  .map(one => one.id).join(" ")"""
CLICK = "byId('%s').click()"
CHANGE = "byId('%s').value = %s; byId('%s').dispatchEvent(new Event('%s'))"
DROP = """(() => {
  const data = new DataTransfer();
  data.items.add(new File([Uint8Array.from(%s, one => one.charCodeAt(0))], %s));
  document.dispatchEvent(new DragEvent("drop", {dataTransfer: data, cancelable: true}));
})()"""
JOB = "JOB U %s -\n LOC 100\nHERE: JRST HERE\n GO HERE\n"
MIDAS = "TITLE HI\nLOC 100\nGO: MOVEI 1,5\n .BREAK 16,\nEND GO\n"
LOOP = "LOAD U J -\n100/ 254000000100\nGO 100\n"
START, SOLUTION = (os.path.join(TOP, "labs", "1-call", *path) for path in (("start.asm",), ("teacher", "solution.asm")))
SCREENS = """byId('console-0-text').textContent.endsWith(%s) && byId('console-1-text').textContent.endsWith(%s)"""
TALK = (("login joe", "\n*", "\n*"), ("login ann", "\n*", "\n*"), ("talk ann", "LEAVES. \n", "\n*"), ("talk joe", "LEAVES. \n", "LEAVES. \n"),
        ("hello ann", "LEAVES. \nhello ann\n", "LEAVES. \nhello ann\n"), ("hello joe", "\nhello joe\n", "\nhello joe\n"))
MISTAKES = "JOB U J -\n LOC 100\nHERE: MOVF 1,2\n JRST THERE\n GO HERE\n"


class Points:
    """The page in a browser, and what it has to show."""

    def __init__(self, browser: Browser, page: str):
        self.browser, self.page = browser, page

    def want(self, what: str, holds: object) -> None:
        """Complains if something is not as it has to be."""
        if not holds:
            raise Wrong("%s; the page says: %s" % (what, self.browser.value("byId('alert').textContent + byId('note').textContent")))

    def shows(self, what: str, condition: str) -> None:
        """Waits until the page shows something."""
        wait(self.browser, condition, what)

    def do(self, script: str) -> None:
        """Does something in the page."""
        self.browser.value("void (() => { %s })()" % script)

    def open(self, keeps: bool = False) -> None:
        """Opens the page as a new reader does, or as one who comes back."""
        if not keeps:
            self.browser.value("void localStorage.clear()")
        self.browser.open(self.page)
        if not keeps:
            self.browser.value("void localStorage.clear()")
            self.browser.open(self.page)
        self.browser.value(NAMED)
        self.shows("the page", DRAWN)

    def change(self, field: str, text: str, kind: str = "input") -> None:
        """Types a text into a field, or chooses in a menu."""
        self.do(CHANGE % (field, json.dumps(text), field, kind))

    def first_view(self) -> None:
        """The idea is in the first view of each window: the job inside its call and as somebody finds it, side by side."""
        for width, height in SIZES:
            for dark in (False, True):
                self.browser.shape(width, height, dark)
                self.open()
                self.shows("the tour", "!byId('tour').hidden")
                found = self.browser.value(IDEA)
                name = "the first view of %d by %d: %s" % (width, height, found)
                stale, restored = found["stale"], found["restored"]
                self.want(name + ": the columns are side by side", stale[2] == restored[2] and stale[1] < restored[0] and restored[1] <= width)
                self.want(name + ": they are in the first pixels", restored[3] <= (min(FIRST, found["low"]) if width < 560 else FIRST))
                self.want(name + ": a sentence and a button", found["said"][3] < restored[2] and found["next"][3] < restored[2] and
                          found["sentences"] == 1)
                self.want(name + ": a byte is in the hand, and somebody looks", (found["state"], found["looks"]) == ("MOVING", "true"))
                if width < 560:
                    self.want("fields that are too small on a phone: " + self.browser.value(SMALL), self.browser.value(SMALL) == "")

    def tour(self) -> None:
        """The tour has six steps at most, by the page's own controls, and can be closed."""
        self.browser.shape(*SIZES[0])
        self.open()
        tabs: List[str] = []
        while not self.browser.value("byId('tour').hidden"):
            tabs.append(self.browser.value("document.querySelector('[role=tab][aria-selected=true]').id"))
            self.do(CLICK % "tour-next")
        self.want("the tour goes through %s" % tabs, tabs == ["tab-session"] * 4 + ["tab-verify", "tab-terminal"])
        self.shows("the editor of lines at the terminal", "!terminal.isBusy && byId('screen-text').textContent.includes('hello')")
        self.shows("the strip of the tour", "document.querySelectorAll('.cell.same').length > 30 && byId('strip-run').textContent !== 'Stop'")
        self.want("the console is announced", self.browser.value("byId('screen-text').getAttribute('aria-live')") == "polite")
        self.do(CLICK % "tour-begin")
        self.shows("the tour anew", DRAWN + " && !byId('tour').hidden && page.moment === 27")
        self.do(CLICK % "tour-end")
        self.want("the tour is closed", self.browser.value("byId('tour').hidden"))

    def saved(self) -> None:
        """The system of a moment is shown as a text, and a session begins with it."""
        self.open()
        self.do("choose('session')")
        self.do(CLICK % "save-here")
        self.shows("what is saved", "!byId('saved').hidden && byId('saved-text').textContent.endsWith('READY\\n')")
        self.do(CLICK % "saved-close")
        self.do(CLICK % "go-on-here")
        self.shows("the session that goes on", DRAWN + " && page.moment === 1 && page.shown.name === 'tour-run-saved.its' && " +
                   "page.shown.text === byId('saved-text').textContent")

    def kept(self) -> None:
        """Own work is kept, asked for before it is replaced, and brought back."""
        self.open()
        self.do("choose('session'); writing(true)")
        self.change("text", LOOP + "TICK 0 3\n")
        self.shows("own work", DRAWN + " && page.shown.text.endsWith('TICK 0 3\\n')")
        self.change("source", JOB % "OWN")
        self.change("examples", "first.its", "change")
        self.want("nothing is replaced without a question", self.browser.value("fields.text.text.endsWith('TICK 0 3\\n') && !byId('question').hidden"))
        self.do("byId('question').querySelectorAll('button')[1].click()")
        self.change("examples", "first.its", "change")
        self.do("byId('question').querySelector('button').click()")
        self.shows("the example", DRAWN + " && page.shown.name === 'first.its'")
        self.do(CLICK % "text-undo")
        self.shows("what Undo brings back", DRAWN + " && page.shown.text.endsWith('TICK 0 3\\n')")
        self.browser.value("new Promise(done => setTimeout(done, 1000))")
        self.do("history.replaceState(null, '', '#')")
        self.open(keeps=True)
        self.want("own texts are kept", self.browser.value("page.shown.text.endsWith('TICK 0 3\\n') && fields.source.text.includes('OWN')"))
        self.want("there are six texts to open and to save", self.browser.value("document.querySelectorAll('.files button').length === 12"))

    def opened(self) -> None:
        """A file that is dropped is judged as it is: a carriage return is named."""
        self.open()
        self.do(DROP % (json.dumps("END\r\n"), json.dumps("dropped.its")))
        self.shows("a dropped file", "page.shown && page.shown.text === 'END\\r\\n' && !doing.isRunning")
        self.want("a carriage return is named", self.browser.value("byId('result').textContent.includes('a carriage return')"))
        self.want("the refused line is marked", self.browser.value("document.querySelector('#lines li.refused .cause') !== null"))
        self.do("choose('verify')")
        self.change("verify-session", LOOP)
        self.do(DROP % (json.dumps("J 0\r\n"), json.dumps("dropped.out")))
        self.do(CLICK % "verify")
        self.shows("the verdict of a transcript with a carriage return", "byId('verdict').textContent.startsWith('NO: line 1 ')")

    def texts(self) -> None:
        """Two texts become one session; a text in MIDAS; a listing; mistakes with place and cause."""
        self.open()
        for name in ("ONE", "TWO", "ONE"):
            self.do("choose('assembly')")
            self.change("source", JOB % name)
            self.shows("the image", "!byId('take').disabled")
            self.do(CLICK % "take")
            self.shows("the job " + name, DRAWN + " && page.shown.text.includes('LOAD U %s ')" % name)
        found = self.browser.value("page.shown.text.match(/LOAD U \\w+/g).join(' ') + page.shown.transcript.slice(0, 8)")
        self.want("a session of two jobs: " + found, found == "LOAD U ONE LOAD U TWOJ 0\nJ 1\n")
        self.do("choose('assembly'); setSource('hi.mid', %s)" % json.dumps(MIDAS))
        self.shows("a text in MIDAS", "!byId('take').disabled")
        for way, words in (("listing", "location  word"), ("plain", "MOVEI 1,5"), ("session", "LOAD U HI 0")):
            self.change("made-as", way, "change")
            self.want("the text as " + way, words in self.browser.value("byId('assembled').textContent"))
        self.do("setSource('wrong.asm', %s)" % json.dumps(MISTAKES))
        self.shows("mistakes", "byId('source-result').textContent.includes('MOVF')")
        said = self.browser.value("byId('source-result').textContent")
        self.want("all mistakes at once", self.browser.value("document.querySelectorAll('.mistake').length") == 3)
        self.want("each mistake has its place and its cause: " + said, "ine 3 (octal 3), column 7" in said and self.browser.value("byId('take').title"))

    def tasks(self) -> None:
        """A task opens from a link; own work is replaced only after a question; the text is graded as by tools/grade."""
        self.open()
        self.change("source", JOB % "OWN")
        self.browser.value("new Promise(done => setTimeout(done, 1000))")
        self.browser.open(self.page, "#task=1-call")
        self.browser.value(NAMED)
        self.shows("the task of a link", DRAWN + " && !byId('task').hidden && !byId('panel-assembly').hidden && !byId('question').hidden")
        self.want("own work is there until the question is answered", self.browser.value("fields.source.text.includes('OWN')"))
        self.do("byId('question').querySelector('button').click()")
        self.want("the text to begin with", self.browser.value("fields.source.text.startsWith('; Task 1: ') && !byId('source-undo').disabled"))
        self.want("each check is shown", self.browser.value("byId('verdicts').children.length === 2 && byId('task-files').textContent.includes(';= ')"))
        self.do(CLICK % "grade")
        self.shows("what the public checks find", "byId('graded').textContent === '1 of 2 public checks passes.'")
        said = subprocess.run([os.path.join(TOP, "tools", "grade"), "--public", "1-call", START], stdout=subprocess.PIPE, check=False).stdout.decode()
        found = self.browser.value("[...byId('verdicts').children].map(one => one.firstChild.textContent.trim())")
        self.want("the lines of tools/grade: %s and %s" % (found, said), found == said.splitlines())
        self.do("byId('verdicts').querySelector('button').click()")
        self.shows("the session that fails, at its end", DRAWN + " && page.shown.name === '1-call-hello.its' && page.moment === moments().length - 1")
        self.do("choose('assembly')")
        self.change("source", text_of(SOLUTION))
        self.want("what was found of the text before is gone", self.browser.value("!byId('verdicts').querySelector('.failed')"))
        self.do(CLICK % "grade")
        self.shows("that each check passes", "byId('graded').textContent.startsWith('Each of the 2 public checks passes.')")
        self.own_texts()

    def own_texts(self) -> None:
        """The reader's text of each task is kept, also if another task is opened."""
        self.change("tasks", "2-bytes", "change")
        self.do("byId('question').querySelector('button').click()")
        self.want("the next task", self.browser.value("fields.source.text.startsWith('; Task 2: ') && byId('task-title').textContent.startsWith('Task 2: ')"))
        self.change("tasks", "1-call", "change")
        self.want("the text of the task before comes back", self.browser.value("fields.source.text") == text_of(SOLUTION))
        self.change("source", JOB % "MORE")
        self.change("tasks", "2-bytes", "change")
        self.do("byId('question').querySelectorAll('button')[1].click()")
        self.browser.value("new Promise(done => setTimeout(done, 1000))")
        self.open(keeps=True)
        self.do("byId('task-anew').click()")
        self.do("byId('question').querySelector('button').click()")
        self.want("another task has its own text", self.browser.value("fields.source.text.startsWith('; Task 2: ')"))
        self.change("tasks", "1-call", "change")
        self.want("the text that was kept is that of its task", self.browser.value("fields.source.text.includes('MORE')"))

    def verified(self) -> None:
        """A line that is not licensed is named with its rule; a verdict goes when a text is changed."""
        self.open()
        self.do("choose('verify')")
        self.change("verify-session", LOOP + "TICK 0 2\n")
        self.change("verify-transcript", "J 0\nT 0 1* 1w\n")
        self.do(CLICK % "verify")
        self.shows("why", "!byId('reasons').hidden && byId('why').textContent.includes('rule: ')")
        found = self.browser.value("['wrong', 'right'].map(kind => document.querySelector('#beside .' + kind).textContent)")
        self.want("the line in red, and that of this program beside it: %s" % found, found == ["> 2 (2)  T 0 1* 1w\n", "> 2 (2)  T 0 2*\n"])
        self.want("what is licensed", "tick 2 of this line is wrong: found `w`, licensed" in self.browser.value("byId('why').textContent"))
        self.change("verify-transcript", "J 0\nT 0 2*\n")
        self.want("an old verdict goes", self.browser.value("byId('reasons').hidden && byId('verdict').textContent === ''"))
        self.do(CLICK % "verify")
        self.shows("YES", "byId('verdict').textContent.startsWith('YES: ')")
        self.want("the examples", self.browser.value("byId('verify-examples').options.length > 20"))
        self.examples()

    def examples(self) -> None:
        """Examples of the Verify tab: own work is asked for once, not the texts of an example before, and comes back by Undo."""
        self.change("verify-examples", "first.its", "change")
        self.want("own work is there until the question is answered", self.browser.value(
            "!byId('question').hidden && fields['verify-transcript'].text === 'J 0\\nT 0 2*\\n'"))
        self.do("byId('question').querySelector('button').click()")
        self.shows("an example", "fields['verify-transcript'].text.includes('E 0 000200')")
        self.change("verify-examples", "tour-run.its", "change")
        self.shows("another one, without a question", "byId('question').hidden && fields['verify-transcript'].text.includes('D 0 141')")
        for name, line in (("lost byte: tour-moving", 5), ("stale words: sleep", 8)):
            self.change("verify-examples", name, "change")
            self.shows("the line of a wrong monitor", "byId('verdict').textContent.startsWith('NO: line %d ')" % line)
            self.want("the monitor, the clause and the rule of " + name, self.browser.value(
                "byId('verify-about').textContent.includes('The prover refuses it: ') && byId('why').textContent.includes('rule: ')"))
            found = self.browser.value("['wrong', 'right'].map(kind => document.querySelector('#beside .' + kind).textContent)")
            self.want("the line in red, and that of the proved monitor beside it: %s" % found, found[0] != found[1] and all("> %d " % line in one for one in found))
        for name in ("session", "transcript"):
            self.do(CLICK % ("verify-%s-undo" % name))
        self.want("own work comes back", self.browser.value(
            "fields['verify-session'].text.endsWith('TICK 0 2\\n') && fields['verify-transcript'].text === 'J 0\\nT 0 2*\\n'"))

    def consoles(self) -> None:
        """Two people at consoles of one system log in and talk, and verify accepts the whole; when the page comes back, the system goes on."""
        self.open()
        self.do("choose('terminal'); byId('two-consoles').click()")
        self.shows("two consoles", SCREENS % (json.dumps("\n*"), json.dumps("\n*")))
        for at, (line, joe, ann) in enumerate(TALK):
            self.do("byId('console-%d').focus()" % (at % 2))
            for key in line:
                self.browser.type(key)
            self.browser.press("Enter")
            self.shows(line, "!seats.running.rounds.isBusy && byId('console-%d-text').textContent.includes(%s) && " % (at % 2, json.dumps(line)) +
                       SCREENS % (json.dumps(joe), json.dumps(ann)))
        self.do(CLICK % "console-1-leave")
        self.shows("that ann has left", "byId('console-0-text').textContent.includes('THE OTHER HAS LEFT')")
        self.shows("that all jobs wait", "byId('consoles-said').textContent === 'All jobs wait.'")
        for width, height in SIZES:
            self.browser.shape(width, height)
            top, other = self.browser.value("[0, 1].map(one => byId('console-' + one).getBoundingClientRect().top)")
            self.want("the consoles side by side, or one above the other in %d columns: %s, %s" % (width, top, other), (top == other) == (width > 900))
            self.want("the width of the consoles in %d columns" % width, self.browser.value("document.documentElement.scrollWidth") <= width)
            self.want("fields that are too small on a phone", width > 560 or self.browser.value(SMALL) == "")
        self.browser.shape(*SIZES[0])
        self.do(CLICK % "consoles-verify")
        self.shows("YES of verify", "byId('verdict').textContent.startsWith('YES: ')")
        self.browser.value("new Promise(done => setTimeout(done, 1000))")
        self.open(keeps=True)
        self.do("choose('terminal')")
        self.shows("the system that goes on", "byId('console-0-text').textContent.includes('THE OTHER HAS LEFT')")
        self.do(CLICK % "one-console")

    def strip(self) -> None:
        """The session is disturbed after each tick: green cells, a click on one, a stop, and that old cells go."""
        self.open()
        self.do(CLICK % "strip-run")
        self.shows("all cells", "document.querySelectorAll('.cell.same').length > 30 && byId('strip-run').textContent !== 'Stop'")
        self.want("what is said", self.browser.value("/^\\d+ \\(octal \\d+\\) ticks disturbed: \\d+ with the same end\\. /.test(byId('strip-said').textContent)"))
        self.do("document.querySelector('.cell[data-tick=\"22\"]').click()")
        self.shows("the tick of a cell", DRAWN + " && moments()[page.moment].tick === 22")
        self.do("void setSession('long.its', %s)" % json.dumps(LOOP + "TICK 0 1000\n" * 4 + "EXAM 0 100 1\n"))
        self.want("old cells go", self.browser.value("new Promise(done => setTimeout(() => done(byId('strip').hidden), 3000))"))
        self.shows("the long session", DRAWN)
        self.do(CLICK % "strip-run")
        self.shows("some cells", "document.querySelectorAll('.cell.same').length > 3")
        self.do(CLICK % "strip-run")
        self.shows("the stop", "byId('strip-said').textContent.startsWith('Stopped. ')")

    def dead(self) -> None:
        """With too many moments the buttons are dead, say why, and a part is offered."""
        self.open()
        self.do("void setSession('many.its', %s)" % json.dumps(LOOP + "TICK 0 1000\n" * 100))
        self.shows("why the buttons are dead", "byId('where').textContent.includes('The buttons are dead')")
        self.want("dead buttons", self.browser.value("byId('tick').disabled && byId('tick').title.includes('Too many')"))
        self.do("byId('where').querySelector('button').click()")
        self.shows("the part", DRAWN + " && !byId('tick').disabled && page.shown.moments.length > 19000")

    def rest(self) -> None:
        """Links to documents that are there; no menu is cut."""
        self.open()
        links = self.browser.value("[...document.querySelectorAll('a[href]')].map(one => one.getAttribute('href'))")
        gone = [link for link in links if not os.path.exists(os.path.join(TOP, "docs", link))]
        self.want("links to documents: %s, without %s" % (links, gone), len(links) >= 5 and not gone)
        for size in SIZES:
            self.browser.shape(*size)
            for tab in ("assembly", "verify", "terminal", "session"):
                self.do("choose('%s')" % tab)
                self.want("menus that are cut: " + self.browser.value(CUT), self.browser.value(CUT) == "")
        self.do("writing(true); fields.text.select(5); byId('text').dispatchEvent(new Event('keyup'))")
        self.want("the list follows the cursor", self.browser.value("document.querySelector('#lines .edited').dataset.line === '5'"))

    def check(self) -> None:
        """Checks all points."""
        self.first_view()
        for act in (self.tour, self.saved, self.kept, self.opened, self.texts, self.tasks, self.verified, self.consoles, self.strip, self.dead, self.rest):
            self.browser.shape(*SIZES[0])
            act()
        self.browser.value("void localStorage.clear()")
