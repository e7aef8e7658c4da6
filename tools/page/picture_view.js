// The page: the picture of the session, with a cursor at the moment. Its rows are drawn when they come into sight.

import {KINDS, LETTERS, NOTES, markSign} from "../lib/drawing.js";
import {BAR} from "../lib/layout.js";
import {countOf, counted} from "../lib/words.js";
import {byId, element, scrollInto} from "./dom.js";
import {MOST_PIECES} from "./running.js";
import {act, page} from "./state.js";

/** @typedef {import("./steps.js").Moment} Moment */

export const TITLE = 34;                 // so much of the picture, its title, is cut off at the top
const NEAR = 400;                        // pixels; a row so near to what is in sight is drawn, too

/** The rows that are drawn, by their index, and which are.
 * @type {{rows: Map<number, Element>, range: string}} */
export const pictured = {rows: new Map(), range: ""};

/** Shows a picture.
 * @param {*} picture */
export function showPicture(picture) {
  byId("unpictured").hidden = Boolean(picture.frame);
  byId("unpictured").textContent = picture.count ? "The picture would have " + countOf(picture.count, "piece") + "; it is drawn of " +
    counted(MOST_PIECES) + " at most. tools/timeline --lines draws a part." : "There is nothing to draw.";
  byId("picture").hidden = !picture.frame;
  byId("drawing").innerHTML = picture.frame || "";
  pictured.rows.clear();
  pictured.range = "";
  drawRows();
  showLegend(picture);
}

/** Draws the rows in sight, and the names of their lanes, which stay in sight when the picture is scrolled sideways. */
export function drawRows() {
  const box = byId("picture"), svg = byId("drawing").querySelector("svg");
  if (!svg || !page.shown) return;
  const {rows, drawings, names} = page.shown.picture, top = box.scrollTop + TITLE - NEAR, bottom = top + box.clientHeight + 2 * NEAR;
  const from = rows.findIndex((/** @type {number[]} */ [, end]) => end >= top);
  const after = rows.findIndex((/** @type {number[]} */ [start]) => start > bottom);
  /** @type {number[]} */
  const wanted = drawings.map((/** @type {string} */ _, /** @type {number} */ row) => row).slice(Math.max(0, from), after < 0 ? rows.length : after);
  if (pictured.range === wanted.join(" ")) return;
  pictured.range = wanted.join(" ");
  for (const [row, drawing] of pictured.rows) {
    if (wanted.includes(row)) continue;
    drawing.remove();
    pictured.rows.delete(row);
  }
  for (const row of wanted.filter(one => !pictured.rows.has(one))) {
    const drawing = document.createElementNS(svg.namespaceURI, "g");
    drawing.innerHTML = drawings[row];
    svg.append(drawing);
    pictured.rows.set(row, drawing);
  }
  byId("lanes").replaceChildren(...names.filter((/** @type {{row: number}} */ {row}) => pictured.rows.has(row)).map(laneElement));
}

/** The name of a lane.
 * @param {{top: number, names: string[]}} lane */
function laneElement({top, names}) {
  const lane = element("div", "lane", ...names[0].split(": ").map(part => element("span", "", part)));
  lane.style.top = (top - TITLE - 2) + "px";
  return lane;
}

/** What letters and marks of the picture mean.
 * @param {*} picture */
function showLegend(picture) {
  const sign = (/** @type {string} */ inner, /** @type {string} */ words) => {
    const item = element("li");
    item.innerHTML = '<svg class="sign" width="24" height="18" aria-hidden="true">' + inner + "</svg> ";
    item.append(words);
    return item;
  };
  const letters = Object.entries(LETTERS).map(([letter, [fill, edge, words]]) => sign(
    '<rect x="1" y="1" width="22" height="16" fill="' + fill + '" stroke="' + edge + '"/><text x="12" y="13" class="middle' +
    (letter === "*" ? " white" : "") + '">' + letter + "</text>", words));
  const kinds = Object.entries(KINDS).filter(([kind]) => (picture.kinds || []).includes(kind))
    .map(([kind, words]) => sign(markSign(kind, 12, 14), words));
  byId("legend").replaceChildren(...letters, ...kinds, ...(picture.isBroken ? [sign("", NOTES.broken)] : []));
}

/** Shows the cursor at a moment, and scrolls to it.
 * @param {Moment} moment */
export function showCursor(moment) {
  const cursor = byId("cursor"), box = byId("picture");
  cursor.hidden = !moment.place;
  if (!moment.place || !page.shown) {
    box.scrollTop = box.scrollLeft = 0;
    return;
  }
  const [row, x, width, top] = moment.place, [rowTop, rowBottom] = page.shown.picture.rows[row], wide = Math.max(width, 4);
  const place = {left: x - (wide - width) / 2 - 2, top: top - TITLE - 3, width: wide + 4, height: BAR + 6};
  for (const [name, pixels] of Object.entries(place)) cursor.style[name] = pixels + "px";
  scrollInto(box, rowTop - TITLE, rowBottom - TITLE + 24, 0);
  scrollInto(box, top - TITLE, top - TITLE + BAR, 20);
  const names = byId("lanes").offsetWidth;
  if (x - names - 20 < box.scrollLeft) box.scrollLeft = x - names - 60;
  else if (x + width + 60 > box.scrollLeft + box.clientWidth) box.scrollLeft = x + width + 160 - box.clientWidth;
}

/** Goes to the moment whose place in the picture is next to a click.
 * @param {MouseEvent} event */
export function goToPlace(event) {
  const {shown} = page;
  if (!shown || !shown.moments) return;
  const sheet = byId("sheet").getBoundingClientRect(), x = event.clientX - sheet.left, y = event.clientY - sheet.top + TITLE;
  const row = shown.picture.rows.findIndex((/** @type {number[]} */ [, bottom]) => y <= bottom + 20);
  let best = -1, least = Infinity;
  shown.moments.forEach(({place}, at) => {
    if (!place || place[0] !== row) return;
    const far = Math.abs(x - place[1] - place[2] / 2) + Math.abs(y - place[3] - BAR / 2) / 100;
    if (far < least) [best, least] = [at, far];
  });
  if (best >= 0) act.go(best);
}
