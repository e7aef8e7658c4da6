// The page as a whole: its tabs, its buttons, and how it begins.

import {assembleText, setSource, showAgain, sourceChanged, takeImage, withImage} from "./assembly.js";
import {seats, showSeats, wireSeats} from "./consoles.js";
import {alertOf, byId, copy, on, saveFile, tried} from "./dom.js";
import {changed, doing, runText, setSession, writing} from "./editor.js";
import {fields} from "./field.js";
import {asked, restore, wireDrops, wireField} from "./keeping.js";
import {addressChanged, hashOf, recall, recallTask, share} from "./link.js";
import {followLine, listNext} from "./lines.js";
import {TITLE, drawRows, goToPlace, pictured} from "./picture_view.js";
import {go, moments, next, pressed} from "./player.js";
import {IDEA, act, exampleOf, examples, page, program} from "./state.js";
import {wireSaved} from "./saved.js";
import {disturbAll, goToCell} from "./strip.js";
import {openTask, restoreTask, wireTasks} from "./tasks.js";
import {beginTerminal, stopAndLook, terminal, wireTerminal} from "./terminal.js";
import {endTour, showStep, wireTour} from "./tour.js";
import {beginVerify, wireVerify} from "./verify.js";
import {built} from "./worker.js";

const TABS = ["session", "assembly", "verify", "terminal"];
const SOURCE = "echo.asm";               // the text of the Assembly tab, until its reader has one

/** Shows a tab.
 * @param {string} name */
function choose(name) {
  for (const one of TABS) {
    const tab = byId("tab-" + one), isChosen = one === name;
    byId("panel-" + one).hidden = !isChosen;
    tab.setAttribute("aria-selected", isChosen);
    tab.tabIndex = isChosen ? 0 : -1;
  }
  showSeats(name === "terminal");
  if (name === "verify") beginVerify();
  act.keep();
}

/** The arrow keys go from tab to tab.
 * @param {*} event */
function tabKey(event) {
  const step = new Map([["ArrowRight", 1], ["ArrowLeft", -1]]).get(event.key);
  if (!step) return;
  const here = TABS.findIndex(name => byId("tab-" + name) === event.target), to = TABS[(here + step + TABS.length) % TABS.length];
  event.preventDefault();
  endTour();
  choose(to);
  byId("tab-" + to).focus();
}

/** Fills a menu with the names of the examples of a kind.
 * @param {string} id
 * @param {RegExp} kind
 * @param {string} first */
function fillMenu(id, kind, first) {
  const own = examples.filter(one => kind.test(one.name));
  byId(id).replaceChildren(new Option(first, ""), ...own.map(({name}) => new Option(name.replace(/\.(its|asm)$/, ""), name)));
}

/** Lets the Session tab act. */
function wireSession() {
  fillMenu("examples", /\.its$/, "(own)");
  on("examples", "change", ({target}) => {
    const name = target.value;
    if (name) asked("text", "the example " + name, () => setSession(name, exampleOf(name)), () => { target.value = ""; });
  });
  wireField("text", setSession);
  wireSaved();
  on("text", "input", changed);
  on("text", "keydown", event => { if (event.ctrlKey && event.key === "Enter") { event.preventDefault(); runText(); } });
  for (const kind of ["click", "keyup"]) on("text", kind, () => followLine(fields.text.lineHere()));
  on("run", "click", runText);
  on("write", "click", () => writing(byId("bench").hidden));
  on("auto", "change", ({target}) => { if (target.checked) runText(); });
  on("share", "click", () => tried(share));
  on("copy", "click", () => tried(() => copy(page.shown ? page.shown.transcript : "", "The transcript is copied.")));
  on("save-picture", "click", () => tried(async () =>
    saveFile((page.shown ? page.shown.name : "session").replace(/(\.its)?$/, ".svg"), (await program.ask("picture", {}, "Drawing")).svg, "image/svg+xml")));
  on("explained", "change", ({target}) => byId("lines").classList.toggle("brief", !target.checked));
  on("earlier", "click", () => listNext(-1));
  on("later", "click", () => listNext(1));
  on("slider", "input", event => go(Number(event.target.value)));
  on("sheet", "click", goToPlace);
  on("picture", "scroll", ({target}) => { byId("lanes").classList.toggle("scrolled", target.scrollLeft > 8); drawRows(); });
  on("strip-run", "click", disturbAll);
  on("strip", "click", goToCell);
  for (const button of document.querySelectorAll("[data-step]")) {
    button.addEventListener("click", () => go(next(/** @type {HTMLElement} */ (button).dataset.step || "")));
  }
}

/** Lets the Assembly tab act. */
function wireAssembly() {
  fillMenu("sources", /\.(asm|mid)$/, "(own)");
  on("sources", "change", ({target}) => {
    const name = target.value;
    if (name) asked("source", "the example " + name, () => setSource(name, exampleOf(name)), () => { target.value = ""; });
  });
  wireField("source", setSource);
  on("source", "input", sourceChanged);
  on("made-as", "change", showAgain);
  on("take", "click", takeImage);
  wireTasks();
}

/** What the page was built from. */
function showBuilt() {
  byId("unproved").hidden = !built.proof.startsWith("none");
  byId("built").textContent = "Built from commit " + built.commit + (built.isChanged ? " with changes" : "") + "; proof " + built.proof +
    "; module of " + built.bits + " bits, SHA-256 " + built.sum + ".";
}

/** Lets the whole page act, and shows what its address says. */
async function begin() {
  act.choose = choose;
  for (const name of TABS) {
    on("tab-" + name, "click", () => { endTour(); choose(name); });
    on("tab-" + name, "keydown", tabKey);
  }
  wireSession();
  wireAssembly();
  wireField("verify-session");
  wireField("verify-transcript");
  wireVerify(examples.map(one => one.name).filter(name => name.endsWith(".its")));
  fillMenu("terminal-example", /\.its$/, "the one of the first tab");
  wireTerminal();
  wireSeats();
  wireTour();
  wireDrops();
  showBuilt();
  on("stop", "click", () => program.stop());
  document.addEventListener("keydown", pressed);
  window.addEventListener("hashchange", addressChanged);
  restore();
  restoreTask();
  if (!fields.source.text) setSource(SOURCE, exampleOf(SOURCE));
  const isTask = recallTask();
  await recall();
  if (isTask) return;
  if (!location.hash || byId("examples").value === IDEA.name && page.moment === IDEA.moment) showStep(0);
}

begin().catch(alertOf);

// What a check of the page uses
export const parts = {act, asked, assembleText, beginTerminal, byId, changed, choose, doing, exampleOf, fields, go, hashOf, moments, openTask, page,
                      pictured, program, runText, seats, setSession, setSource, stopAndLook, terminal, withImage, writing, BAR: 18, TITLE};
