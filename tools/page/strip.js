// The page: the session disturbed after each of its ticks, as a strip of cells below the picture, one a tick.

import {MOST, SETTLE} from "../lib/disturbing.js";
import {countOf, counted} from "../lib/words.js";
import {alertOf, byId, element} from "./dom.js";
import {act, page, program} from "./state.js";

/** @typedef {import("./disturbed.js").Cell} Cell */

/** The cells by their ticks, and what is done: the counts, and whether the strip is made now. */
const state = {cells: /** @type {Map<number, *>} */ (new Map()), same: 0, other: 0, off: 0, isRunning: false};

/** Another session is shown, or none: the strip is empty. */
function begin() {
  state.cells.clear();
  state.isRunning = false;
  byId("strip").replaceChildren();
  byId("strip").hidden = true;
  byId("strip-said").textContent = "";
  byId("strip-run").textContent = "Disturb it after each tick";
}

/** An empty cell for each tick of the session. */
function drawCells() {
  const ticks = page.shown && page.shown.moments ? page.shown.moments.filter(moment => moment.letter) : [];
  state.cells = new Map(ticks.slice(0, MOST).map(({tick, letter}) => {
    const cell = element("span", "cell", letter);
    cell.dataset.tick = tick;
    return [tick, cell];
  }));
  byId("strip").replaceChildren(...state.cells.values());
  byId("strip").hidden = false;
}

/** Fills in a cell.
 * @param {Cell} found */
function fill({tick, runs, frame, left, differs}) {
  const cell = state.cells.get(tick);
  if (!runs) state.off += 1;
  else if (differs) state.other += 1;
  else state.same += 1;
  if (!cell) return;
  cell.classList.add(!runs ? "off" : differs ? "other" : "same");
  cell.title = "Tick " + counted(tick) + ": " + (!runs ? "no job runs here" : "met in " + frame + ", " + countOf(left, "step") + " unwound: " +
    (differs ? "the end differs: " + differs : "the same end"));
}

/** The cells that are still empty: a tick of waiting after another one finds the job as that one does, and after any other no job runs. */
function fillRest() {
  /** @type {Map<string, *>} */
  const before = new Map();              // slot -> the cell before
  for (const {slot, letter, tick} of page.shown && page.shown.moments || []) {
    const cell = letter && state.cells.get(tick), last = before.get(slot);
    if (!cell) continue;
    if (cell.className === "cell") {
      const isAlike = letter === "w" && last && !last.classList.contains("off");
      cell.className = isAlike ? last.className : "cell off";
      cell.title = "Tick " + counted(tick) + ": " + (isAlike ? "the job is as after the tick before" : "no job runs after it");
    }
    before.set(slot, cell);
  }
}

/** How far the strip is.
 * @param {number} left */
function said(left) {
  const done = countOf(state.same + state.other, "tick") + " disturbed: " + state.same + " with the same end" + (state.other ? ", " + state.other +
    " with another one (the job may have been late there: give it more ticks)" : "");
  return done + (left ? "; " + left + " to come" : ". A click on a cell goes there.");
}

/** Disturbs the session after each tick, or stops that. */
export async function disturbAll() {
  if (state.isRunning || !page.shown || !page.shown.moments) {
    state.isRunning = false;
    return;
  }
  const own = page.shown;
  begin();
  Object.assign(state, {isRunning: true, same: 0, other: 0, off: 0});
  byId("strip-run").textContent = "Stop";
  try {
    let {left} = await program.ask("disturb", {way: byId("strip-way").value, settle: SETTLE}, "Disturbing the session");
    drawCells();
    while (left && state.isRunning && own === page.shown) {
      const more = await program.ask("disturbMore", {}, "Disturbing the session");
      if (own !== page.shown) return;
      more.cells.forEach(fill);
      left = more.left;
      byId("strip-said").textContent = said(left);
    }
    if (own === page.shown && !left) fillRest();
    if (own === page.shown && left) byId("strip-said").textContent = "Stopped. " + said(left);
  } catch (problem) {
    if (own === page.shown) alertOf(problem);
  } finally {
    if (own === page.shown) {
      state.isRunning = false;
      byId("strip-run").textContent = "Disturb it after each tick";
    }
  }
}

/** Goes to the tick of a cell.
 * @param {*} event */
export function goToCell(event) {
  const cell = event.target.closest(".cell"), all = page.shown && page.shown.moments || [];
  if (cell) act.go(all.findIndex(moment => moment.letter && moment.tick === Number(cell.dataset.tick)));
}

export const strip = {begin};
