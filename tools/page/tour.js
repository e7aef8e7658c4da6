// The page: what the first view says, and the short guided tour, by the page's own controls.

import {byId, on} from "./dom.js";
import {setSession, writing} from "./editor.js";
import {names} from "./keeping.js";
import {next} from "./player.js";
import {IDEA, act, exampleOf, page} from "./state.js";
import {disturbAll} from "./strip.js";

/** A step of the tour: what it says, the tab, the control that it names, and what its button does with this control.
 * @typedef {{said: string, tab: string, control: string, words: string, press: () => void}} Step */

/** @type {Step[]} */
const STEPS = [
  {said: "This job holds the byte 'a', which has left the console and is not in memory yet: inside its call the words are stale (left), but whoever " +
     "looks finds the job outside it, with the byte stored and two to go (right).",
   tab: "session", control: "jobs", words: "One tick on", press: () => act.go(next("tick"))},
  {said: "Step by tick: the buttons, the arrow keys, or a click into the picture go to any moment. The two columns agree wherever the job is " +
     "in user mode.",
   tab: "session", control: "tick", words: "To the end", press: () => act.go(next("last"))},
  {said: "Run: the session is a text, and it runs at each change. Each line has the answer of the proved program, and what it means.",
   tab: "session", control: "write", words: "Write in it", press: () => writing(true)},
  {said: "Disturb: does it matter when somebody looks? The session is run once for each of its ticks, disturbed there. A green cell has the " +
     "same end.",
   tab: "session", control: "strip-run", words: "Disturb it", press: () => { disturbAll(); }},
  {said: "Verify: a transcript from any monitor is judged by the proved checker. A line that is not licensed is named, with its rule.",
   tab: "verify", control: "verify", words: "To the terminal", press: () => act.choose("terminal")},
  {said: "Terminal: sit down at a console. Type at the job, and stop it with Control-Z in the middle of a call.",
   tab: "terminal", control: "screen", words: "Done", press: () => {}}];

let at = 0;

/** Marks the control that a step names. */
function mark() {
  for (const old of document.querySelectorAll(".pointed")) old.classList.remove("pointed");
  if (at) byId(STEPS[at].control).classList.add("pointed");
}

/** Shows a step; none, if the tour is over.
 * @param {number} step */
export function showStep(step) {
  at = step;
  const box = byId("tour"), own = STEPS[step];
  box.hidden = !own;
  if (!own) {
    at = 0;
    mark();
    return;
  }
  act.choose(own.tab);
  if (own.tab === "terminal") act.single();
  byId("tour-said").textContent = own.said;
  byId("tour-place").textContent = (step + 1) + " of " + STEPS.length;
  byId("tour-next").textContent = own.words;
  mark();
  if (step) byId(own.control).scrollIntoView({block: "nearest"});
}

/** The reader is at another moment, so that the first view is over; or at another session, so that the tour is. */
function moved() {
  if (at || byId("tour").hidden) return;
  if (names.text !== IDEA.name) endTour();
  else if (page.moment !== IDEA.moment) showStep(1);
}

/** Ends the tour. */
export function endTour() { showStep(STEPS.length); }

/** Does what the step says by its control, and goes on. */
function press() {
  const to = at + 1;
  STEPS[at].press();
  showStep(to);
}

/** Begins the tour at its first view. */
async function beginTour() {
  writing(false);
  endTour();
  const running = setSession(IDEA.name, exampleOf(IDEA.name));
  page.moment = IDEA.moment;
  page.looking.add(IDEA.slot);
  showStep(0);
  await running;
}

/** Lets the tour act. */
export function wireTour() {
  on("tour-next", "click", press);
  on("tour-end", "click", endTour);
  act.moved = moved;
  on("tour-begin", "click", beginTour);
}
