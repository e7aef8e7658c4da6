// The page: the list of a session's lines, each with what the transcript answers and what both mean. The lines are in parts, of which one is
// listed.

import {numbered} from "../lib/session.js";
import {countOf} from "../lib/words.js";
import {byId, element, scrollInto} from "./dom.js";
import {rangeText} from "./field.js";
import {MOST_LISTED} from "./running.js";
import {act, page} from "./state.js";
import {lettersAround} from "./steps.js";

/** @typedef {import("../lib/told.js").Told} Told */
/** @typedef {import("./steps.js").Moment} Moment */

const AROUND = 48;                       // so many letters of a TICK line are shown on each side of the one at the cursor

/** The part that is listed, its lines and their entries, and the entry of the moment. */
const listed = {part: -1, lines: /** @type {Told[]} */ ([]), items: /** @type {Map<number, *>} */ (new Map()), current: /** @type {*} */ (null)};

/** Lists a part of the lines of the session.
 * @param {number} part */
export function listPart(part) {
  const {parts, listed: all} = page.shown || {parts: [], listed: 0}, one = parts[part] || {first: 1, count: 0, json: "[]"};
  listed.part = part;
  listed.lines = JSON.parse(one.json);
  listed.items = new Map(listed.lines.map(line => [line.line, lineElement(line)]));
  listed.current = null;
  byId("lines").style.setProperty("--digits", numbered(all).length);
  byId("lines").replaceChildren(...listed.items.values());
  byId("lines").scrollTop = 0;
  byId("paging").hidden = parts.length <= 1;
  byId("which").textContent = rangeText(one.first, one.first + one.count - 1, all);
  byId("earlier").disabled = part <= 0;
  byId("later").disabled = part >= parts.length - 1;
}

/** Lists the part before or after the one that is listed.
 * @param {number} by */
export function listNext(by) { listPart(listed.part + by); }

/** What is said of a line; its part is listed then. Nothing, if the line has no entry.
 * @param {number} number */
export function lineAt(number) {
  if (number && !listed.items.has(number) && page.shown) listPart(page.shown.parts.filter(part => part.first <= number).length - 1);
  return listed.lines.find(one => one.line === number);
}

/** Texts as elements of the list. Of very many the first ones, and how many there are more.
 * @param {string} kind
 * @param {string[]} texts */
function listedTexts(kind, texts) {
  const rest = texts.length - MOST_LISTED, some = texts.slice(0, MOST_LISTED).map(one => element("span", kind, one));
  return rest > 0 ? [...some, element("span", "said", "and " + countOf(rest, "line") + " more, which are in the transcript")] : some;
}

/** A line of the session with its answers, and what they mean. A click on it goes to its end.
 * @param {Told} one */
function lineElement(one) {
  const isComment = /^ *(;|$)/.test(one.text), isEnd = page.shown && one.line > page.shown.count, {refused} = one;
  const source = element("span", isComment ? "source comment" : "source", isEnd ? "(the input ends)" : one.text.replace(/\r/g, "␍"));
  const item = element("li", refused ? "refused" : "", element("span", "number", numbered(one.line)), source);
  if (refused && refused.column && refused.column < 256) item.append(element("span", "caret-at", " ".repeat(refused.column - 1) + "^"));
  item.append(...listedTexts("answer", one.answer), ...listedTexts("said", one.means));
  if (refused) item.append(element("span", "said cause", "refused as " + refused.reason + ": " + refused.cause));
  item.dataset.line = one.line;
  item.addEventListener("click", () => {
    if (page.shown && page.shown.moments) act.go(page.shown.moments.filter(moment => moment.line <= one.line).length - 1);
  });
  return item;
}

/** Marks the line of a moment, and scrolls to it.
 * @param {Moment} moment */
export function showLine(moment) {
  if (listed.current) {
    listed.current.removeAttribute("aria-current");
    const letters = listed.current.querySelector(".letters");
    if (letters) letters.remove();
  }
  const line = lineAt(moment.line), item = listed.current = line ? listed.items.get(moment.line) : null, list = byId("lines");
  if (!item) {
    list.scrollTop = 0;
    return;
  }
  item.setAttribute("aria-current", "step");
  if (moment.letter) item.querySelector(".source").after(lettersOf(moment));
  scrollInto(list, item.offsetTop, item.offsetTop + item.offsetHeight, 80);
}

/** Marks the line that is edited, and brings it into sight.
 * @param {number} number */
export function followLine(number) {
  for (const old of byId("lines").querySelectorAll(".edited")) old.classList.remove("edited");
  const line = lineAt(number), item = line && listed.items.get(number);
  if (!item) return;
  item.classList.add("edited");
  scrollInto(byId("lines"), item.offsetTop, item.offsetTop + item.offsetHeight, 60);
}

/** The letters of the TICK line at the cursor, with the one of this tick marked.
 * @param {Moment} moment */
function lettersOf(moment) {
  const moments = page.shown && page.shown.moments || [];
  const {before, after, tick, count} = lettersAround(moments, moments.indexOf(moment), AROUND);
  const letters = element("span", "letters", before, element("b", "", moment.letter), after);
  letters.setAttribute("aria-label", "tick " + tick + " of " + count + " of this line");
  return letters;
}
