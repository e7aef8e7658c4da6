// The page: the session that is written and run: at each change, by the button, or by Control and Enter.

import {atLine} from "../lib/session.js";
import {countOf, counted} from "../lib/words.js";
import {Stopped, alertOf, buttonOf, byId, noteOf} from "./dom.js";
import {fields} from "./field.js";
import {names, replace} from "./keeping.js";
import {followLine, listPart, showLine} from "./lines.js";
import {showPicture} from "./picture_view.js";
import {forget, moments, show} from "./player.js";
import {act, exampleOf, page, program} from "./state.js";
import {momentsIn} from "./steps.js";
import {strip} from "./strip.js";

const SLOW = 250;                        // milliseconds; if two runs in a row take longer, there is none at each change
const IDLE = 150;                        // milliseconds without a change, before the moments are found

/** What goes on: whether a session runs, whether it was changed meanwhile, the wait for its moments, and how many runs in a row were slow. */
export const doing = {isRunning: false, isStale: false, idle: 0, slow: 0};

/** Runs the text of the editor; one that is changed meanwhile, once more. */
export async function runText() {
  if (doing.isRunning) {
    doing.isStale = true;
    return;
  }
  doing.isRunning = true;
  try {
    do {
      doing.isStale = false;
      await runOnce(names.text, fields.text.text);
    } while (doing.isStale);
  } catch (problem) {
    alertOf(problem);
    byId("result").textContent = problem instanceof Stopped ? "Stopped. Run begins anew." : "";
    if (problem instanceof Stopped) byId("auto").checked = false;
  } finally {
    doing.isRunning = false;
  }
}

/** Runs a session once, and shows it.
 * @param {string} name
 * @param {string} text */
async function runOnce(name, text) {
  const texts = [...new Set([fields.source.text, exampleOf(name.replace(/\.its$/, ".asm"))].filter(Boolean))];
  const answer = await program.ask("run", {name, text, texts}, "Running the session");
  const {parts, listed, count, transcript, picture, sources, last} = answer, refused = last && last.refused ? last.line : 0;
  alertOf(null);
  byId("lines").classList.remove("stale");
  forget();
  page.shown = {name, text, parts, listed, count, transcript, picture, sources, refused, moments: null};
  strip.begin();
  showPicture(picture);
  listPart(0);
  if (refused) followLine(refused);
  showResult(answer);
  window.clearTimeout(doing.idle);
  doing.slow = answer.took > SLOW ? doing.slow + 1 : 0;
  if (doing.slow > 1 && byId("auto").checked) {
    byId("auto").checked = false;
    byId("result").append(" It takes long, so it is not run at each change now.");
  }
  showSteppable(answer.moments <= answer.most);
  if (answer.moments > answer.most) tooMany(answer);
  else doing.idle = window.setTimeout(step, IDLE);
}

/** Whether one can step: else the buttons are dead, and say why.
 * @param {boolean} isSteppable */
function showSteppable(isSteppable) {
  for (const control of document.querySelectorAll("[data-step], #slider")) {
    Object.assign(control, {disabled: !isSteppable});
    /** @type {HTMLElement} */ (control).title = isSteppable ? /** @type {HTMLElement} */ (control).dataset.key || "" :
      "Too many moments to step through: see the line below";
  }
}

/** Says why nothing is stepped through, and offers the first lines of the session.
 * @param {{most: number, moments: number}} answer */
function tooMany({most, moments: found}) {
  const {shown} = page, text = shown ? shown.text : "", name = shown ? shown.name : "";
  const part = buttonOf("Take its beginning", async () => {
    const {part: some} = await program.ask("beginning", {text}, "Finding the part");
    setSession(name.replace(/(\.its)?$/, "-beginning.its"), some);
    noteOf("This is the beginning of the session. Undo brings the whole one back.");
  });
  byId("where").replaceChildren("The buttons are dead: one steps through " + countOf(most, "moment") + " at most, and this session has up to " + counted(found) +
    ". Let its TICK and RUN lines make fewer ticks, or step through its first lines: ", part);
}

/** Finds the moments of the session that was run, and shows the one at which the reader is. */
async function step() {
  const own = page.shown;
  try {
    const {json} = await program.ask("steps", {}, "Finding the moments of the session");
    if (!own || own !== page.shown || doing.isRunning) return;
    const {outline, spots} = JSON.parse(json);
    own.moments = momentsIn(outline, spots);
    byId("slider").max = moments().length - 1;
    page.moment = Math.min(page.moment, moments().length - 1);
    show();
  } catch (problem) {
    if (own === page.shown) alertOf(problem);
  }
}

/** How the session ended, in a sentence; a line that is refused can be gone to.
 * @param {*} answer */
function showResult({status, last, unread, ran}) {
  const refused = last && last.refused, result = byId("result"), time = " (" + ran.toFixed(1) + " ms)";
  result.classList.toggle("bad", Boolean(refused));
  if (!refused) {
    result.textContent = (status === 0 ? "Done: no line is refused" : "The status is " + status) + time + "." +
      (unread > 0 ? " " + countOf(unread, "line") + " after END " + (unread === 1 ? "is" : "are") + " not looked at." : "");
    return;
  }
  result.replaceChildren("L" + atLine(last.line).slice(1) + " is refused as " + refused.reason + ": " + refused.cause + ". ",
                         buttonOf("Go there", () => { writing(true); fields.text.select(last.line); }));
}

/** Puts a session into the editor, and runs it.
 * @param {string} name
 * @param {string} text */
export function setSession(name, text) {
  replace("text", name, text);
  byId("examples").value = exampleOf(name) === text ? name : "";
  page.moment = 0;
  page.looking.clear();
  page.watched.length = 0;
  act.moved();
  act.keep();
  return runText();
}

/** The text of the editor was changed. Until it is run, what is shown is that of the text before. */
export function changed() {
  byId("examples").value = "";
  if (byId("auto").checked) runText();
  else {
    byId("result").textContent = "The text was changed since it was run: Run shows what it does now.";
    byId("lines").classList.add("stale");
  }
  act.keep();
}

/** Whether the text is edited, beside its lines; else its lines are beside the jobs.
 * @param {boolean} isWriting */
export function writing(isWriting) {
  byId("bench").hidden = !isWriting;
  byId(isWriting ? "bench" : "below").append(byId("listing-box"));
  byId("below").classList.toggle("single", isWriting);
  byId("panel-session").classList.toggle("writing", isWriting);
  byId("write").setAttribute("aria-pressed", isWriting);
  if (isWriting) {
    fields.text.number();
    followLine(fields.text.lineHere());
  } else if (page.now) showLine(moments()[page.now.moment]);
}
