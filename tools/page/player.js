// The page: stepping through the moments of a session. What holds at a moment the worker finds out when the reader is there (looks.js).

import {LETTERS} from "../lib/drawing.js";
import {atLine} from "../lib/session.js";
import {countOf, counted, value} from "../lib/words.js";
import {Stopped, alertOf, byId} from "./dom.js";
import {showJobs} from "./job_card.js";
import {whereabouts} from "./job_words.js";
import {lineAt, showLine} from "./lines.js";
import {showCursor} from "./picture_view.js";
import {act, page, program} from "./state.js";
import {stepFrom} from "./steps.js";

/** @typedef {import("./looks.js").View} View */
/** @typedef {import("./steps.js").Moment} Moment */

/** The moments of the session that is shown; none, if they are not found.
 * @returns {Moment[]} */
export function moments() { return page.shown && page.shown.moments || []; }

/** The moment in a sentence.
 * @param {Moment} moment */
function sentence(moment) {
  const all = moments(), ticks = all[all.length - 1].tick, {now} = page;
  if (moment.line === 0) return "Before the first line. " + countOf(ticks, "tick") + " to come.";
  const where = moment.slot === "" || !now ? "" : whereabouts(moment.slot, now.jobs[moment.slot]), of = counted(moment.tick) + " of " + counted(ticks);
  if (moment.letter) return "Tick " + of + " is “" + moment.letter + "”, " + LETTERS[moment.letter][2] + "." + where;
  const line = lineAt(moment.line), text = line && line.text.trim() || "the end of the input", refused = line && line.refused;
  const what = refused ? "is refused as " + refused.reason + ", and the session is over" : "after tick " + of;
  return "L" + atLine(moment.line).slice(1) + ", " + text + ", " + what + "." + (refused ? "" : where);
}

/** The moment to which a step leads.
 * @param {string} step */
export function next(step) { return stepFrom(moments(), page.moment, step); }

/** Goes to a moment.
 * @param {number} moment */
export function go(moment) {
  const last = moments().length - 1;
  if (last < 0) return;
  page.moment = Math.max(0, Math.min(last, moment));
  act.moved();
  update();
}

/** What the page shows, if it shows a moment. */
function keyOf(moment = page.moment) { return moment + " " + page.watched.join(" ") + " " + [...page.looking].join(","); }

/** Shows the moment at which the reader is. The worker is asked for one moment at a time, always the latest. */
export async function show() {
  if (page.isAsking || !moments().length) return;
  page.isAsking = true;
  try {
    for (let key = ""; moments().length && key !== keyOf();) {
      const own = page.shown, view = await program.ask("view", {at: page.moment, watch: page.watched.map(value)}, "Looking at this moment");
      if (own !== page.shown || !moments().length) continue;
      key = keyOf(view.moment);
      draw(view);
    }
  } catch (problem) {
    alertOf(problem);
    if (problem instanceof Stopped) forget();
  } finally {
    page.isAsking = false;
  }
}

/** Draws what holds at a moment.
 * @param {View} view */
function draw(view) {
  page.now = view;
  const moment = moments()[view.moment], said = sentence(moment), slider = byId("slider");
  byId("where").textContent = said;
  showJobs();
  showLine(moment);
  showCursor(moment);
  slider.value = view.moment;
  slider.setAttribute("aria-valuetext", said);
  for (const button of document.querySelectorAll("[data-step]")) {
    const to = next(/** @type {HTMLElement} */ (button).dataset.step || "");
    button.setAttribute("aria-disabled", String(to === page.moment));
  }
  page.drawn = view.moment;
}

/** Shows the page after a change by the reader, and remembers the change. */
function update() {
  show();
  act.keep();
}

/** Nothing is stepped through. */
export function forget() {
  if (page.shown) page.shown.moments = null;
  page.now = null;
  page.drawn = -1;
  showJobs();
  byId("none").hidden = true;
  byId("cursor").hidden = true;
  byId("where").textContent = "";
}

/** @type {Record<string, string>} */
const KEYS = {ArrowRight: "tick", ArrowLeft: "tick-back", ArrowDown: "line", ArrowUp: "line-back", Home: "first", End: "last"};
/** @type {Record<string, string>} */
const SHIFTED = {ArrowRight: "star", ArrowLeft: "star-back"};

/** A key steps, if no text field has the focus.
 * @param {*} event */
export function pressed(event) {
  const isTyped = event.target.closest("input, textarea, select, [role=tab], [role=textbox]");
  if (event.ctrlKey || event.altKey || event.metaKey || isTyped || byId("panel-session").hidden) return;
  const step = (event.shiftKey ? SHIFTED : KEYS)[event.key];
  if (!step || !moments().length) return;
  event.preventDefault();
  go(next(step));
}

Object.assign(act, {go, update});
