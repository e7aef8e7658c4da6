// Shared by the page and the commands: the picture of a story as SVG, and the place of each tick and each mark in it.

import {KINDS, LETTERS, NOTES, coordinate, legendSign, markSign, svgLine, svgOf, svgText, wrapped, xml} from "./drawing.js";
import {AXIS, BAR, CHAR, COLUMN, EDGE, GAP, LEFT, LONGEST, SHAPE, cutLabel, headsOf, laidOut, livesOf, partOf, widthOf} from "./layout.js";
import {isMark} from "./story.js";
import {octal} from "./words.js";

/** @typedef {import("./story.js").Lane} Lane */
/** @typedef {import("./story.js").Mark} Mark */
/** @typedef {import("./story.js").Piece} Piece */
/** @typedef {import("./story.js").Story} Story */
/** @typedef {import("./layout.js").Layout} Layout */
/** @typedef {import("./layout.js").Life} Life */
/** @typedef {import("./layout.js").Row} Row */
/** @typedef {import("./layout.js").Shape} Shape */

const NOTE = 6.6;                        // the width of a character of a note

/** A mark of a lane whose bars begin at the height bar: its label upwards, its sign, and a line through the lane.
 * @param {Mark} mark
 * @param {number} x
 * @param {number} bar
 * @param {number} longest */
function drawMark(mark, x, bar, longest) {
  const colour = ["disturb", "refused"].includes(mark.kind) ? "#c2410c" : "#777";
  const dashes = ["look", "other"].includes(mark.kind) ? ' stroke-dasharray="2 2"' : "";
  return ["<g><title>" + xml(mark.tip) + "</title>", svgLine(x, bar - 1, x, bar + BAR, colour, dashes), markSign(mark.kind, x, bar - 1),
          svgText(x + 4, bar - 14, cutLabel(mark, longest), "mono", true) + "</g>"];
}

/** The runs of a lane in a row: for each letter one path, and in each bar that is wide enough its text.
 * @param {Row} row
 * @param {Lane | null} lane
 * @param {number} bar
 * @param {number} tick */
function drawBars(row, lane, bar, tick) {
  const letters = Object.keys(LETTERS), paths = Object.fromEntries(letters.map(letter => [letter, ""])), texts = [];
  let breaks = "";
  for (const [x, run] of row.placed) {
    if (isMark(run) || run.lane !== lane) continue;
    const width = widthOf(run, tick), whole = run.count === 1 ? run.letter : octal(run.count) + run.letter;
    paths[run.letter] += "M" + coordinate(x) + " " + coordinate(bar) + "h" + coordinate(width) + "v" + BAR + "h-" + coordinate(width) + "z";
    if (run.count * tick > LONGEST) {
      for (const place of [x + 20, x + width - 26]) {
        breaks += "M" + coordinate(place) + " " + coordinate(bar + BAR + 2) + "l6 -" + (BAR + 4) + "h6l-6 " + (BAR + 4) + "z";
      }
    }
    const words = whole.length * CHAR + 2 <= width ? whole : CHAR + 1 <= width ? run.letter : "";
    if (words) texts.push(svgText(x + width / 2, bar + 13, words, run.letter === "*" ? "mono middle white" : "mono middle"));
  }
  if (breaks) texts.push('<path d="' + breaks + '" fill="#fff"/>');
  return [...letters.filter(letter => paths[letter]).map(letter => '<path d="' + paths[letter] + '" fill="' + LETTERS[letter][0] +
    '" stroke="' + LETTERS[letter][1] + '" stroke-width="' + (tick >= 4 ? "1" : "0.3") + '"/>'), ...texts];
}

/** The line of the life of a lane's job in a row. If the job is gone later, dots lead from the place at which it was seen last to the one at
 * which the transcript shows that it is gone.
 * @param {Layout} layout
 * @param {Life | undefined} own
 * @param {number} at
 * @param {number} y */
function drawLife(layout, own, at, y) {
  const row = layout.rows[at], count = layout.rows.length;
  /** @type {Life} */
  const life = own || {begins: [0, LEFT], ends: [0, LEFT], gone: [count, 0]};
  const isGone = life.gone[0] < count, certain = partOf(at, life.begins, isGone ? life.ends : life.gone, row.end);
  const open = isGone ? partOf(at, life.ends, life.gone, row.end) : null;
  return [...(certain ? [svgLine(certain[0], y, certain[1], y, "#999", ' stroke-width="2"')] : []),
          ...(open ? [svgLine(open[0], y, open[1], y, "#999", ' stroke-dasharray="1 4"')] : [])];
}

/** The two lines of text at the left of a lane.
 * @param {Lane | null} lane */
export function laneNames(lane) {
  if (!lane) return ["operator", "consoles, clock, files"];
  return ["slot " + octal(lane.slot) + (lane.names ? ": " + lane.names : ""), lane.seen ? lane.note : "no job seen"];
}

/** A lane in a row: its names at the left, the line of its job's life, its bars and its marks.
 * @param {Layout} layout
 * @param {Map<Lane, Life>} lives
 * @param {number} at
 * @param {Lane | null} lane
 * @param {number} bar */
function drawLane(layout, lives, at, lane, bar) {
  const row = layout.rows[at], [name, note] = laneNames(lane);
  const out = [svgText(EDGE, bar + 7, name, "bold"), svgText(EDGE, bar + 20, note, "small")];
  if (!lane) out.push(svgLine(LEFT, bar + BAR / 2, row.end, bar + BAR / 2, "#bbb"));
  else if (lane.seen) out.push(...drawLife(layout, lives.get(lane), at, bar + BAR / 2));
  out.push(...drawBars(row, lane, bar, layout.tick));
  for (const [x, piece] of row.placed) {
    if (isMark(piece) && piece.lane === lane) out.push(...drawMark(piece, x + COLUMN / 2, bar, layout.longest));
  }
  return out;
}

/** The numbers below a row.
 * @param {Row} row
 * @param {number} y
 * @param {number} tick */
function drawAxis(row, y, tick) {
  let step = 1, free = 0;
  while (step * tick < 56) step *= 2;
  const out = [svgLine(LEFT, y, Math.max(row.end, LEFT + 1), y, "#bbb")];
  for (const [x, run] of row.placed) {
    if (isMark(run)) continue;
    const isWhole = run.count * tick > LONGEST || !free;     // the first number of a row says where the row begins
    const first = isWhole ? run.start : Math.ceil(run.start / step) * step, end = isWhole ? run.start + 1 : run.start + run.count;
    for (let at = first; at < end; at += step) {
      const place = x + (at - run.start) * tick;
      if (place < free) continue;
      out.push(svgLine(place, y, place, y + 4, "#777"), svgText(place, y + 15, octal(at), "small middle"));
      free = place + 40;
    }
  }
  return out;
}

/** What is below the legend.
 * @param {Story} story
 * @param {Layout} layout */
function notesOf(story, layout) {
  const marks = layout.rows.flatMap(row => row.placed.map(([, piece]) => piece)).filter(isMark);
  const isBroken = story.pieces.some(piece => !isMark(piece) && piece.count * layout.tick > LONGEST);
  return [...NOTES.always, ...(isBroken ? [NOTES.broken] : []), ...(marks.some(mark => mark.kind === "gone") ? [NOTES.ended] : []),
          ...(marks.some(mark => mark.labels[0].includes(" × ")) ? [NOTES.many] : [])];
}

/** The legend below the rows, of what comes: its parts and its lower end.
 * @param {Story} story
 * @param {number} top
 * @param {Layout} layout
 * @param {number} span
 * @returns {[string[], number]} */
function drawLegend(story, top, layout, span) {
  const used = new Set(story.pieces.filter(isMark).map(mark => mark.kind)), columns = span > 900 ? 2 : 1;
  const items = [...Object.entries(LETTERS).map(([letter, [, , words]]) => [letter, words]),
                 ...Object.entries(KINDS).filter(([kind]) => used.has(kind))];
  const out = [svgLine(EDGE, top, LEFT + span, top, "#ccc")];
  let y = top + 22;
  items.forEach(([what, words], at) => {
    const x = EDGE + (at % columns) * (LEFT + span - EDGE) / columns;
    out.push(...legendSign(what, x, y), svgText(x + 30, y, words));
    if (at % columns === columns - 1 || at === items.length - 1) y += 20;
  });
  for (const words of notesOf(story, layout).flatMap(note => wrapped(note, Math.floor((LEFT + span) / NOTE)))) {
    out.push(svgText(EDGE, y, words, "small"));
    y += 16;
  }
  return [out, y];
}

/** The name of the session, and what is in it.
 * @param {Story} story
 * @param {string} name */
function heading(story, name) {
  const shown = new Set(story.pieces.map(piece => piece.lane)), jobs = story.lanes.filter(lane => lane.seen && shown.has(lane)).length;
  const ticks = story.pieces.reduce((sum, piece) => sum + (isMark(piece) ? 0 : piece.count), 0);
  return [svgText(EDGE, 26, name, "title"),
          svgText(EDGE + 9.2 * name.length + 14, 26, "jobs seen: " + jobs + ", ticks: " + octal(ticks) + " (octal)", "small")];
}

/** The place of a piece in a picture: its row, its left edge, and the upper edge of the bars of its lane, which are BAR high.
 * @typedef {{piece: Piece, row: number, x: number, width: number, top: number}} Spot */

/** The picture of a story: its SVG, and in parts the same without a legend: a frame, and what is drawn of each row. Its size, the place of
 * each piece, the top and the bottom of each row, and the places of the lanes' names.
 * @param {Story} story
 * @param {string} name
 * @param {Partial<Shape>} [shape] */
export function pictureOf(story, name, shape) {
  const whole = {...SHAPE, ...shape}, layout = laidOut(story, whole), lives = livesOf(layout.rows, layout.tick);
  const head = heading(story, name), drawings = [], names = [];
  /** @type {Spot[]} */
  const spots = [];
  /** @type {[number, number][]} */
  const rows = [];
  let y = 40;
  for (const [at, row] of layout.rows.entries()) {
    const top = y, heads = headsOf(row, layout.lanes[at], layout.longest), out = [];
    for (const [index, lane] of layout.lanes[at].entries()) {
      y += heads[index];
      out.push(...drawLane(layout, lives, at, lane, y));
      names.push({row: at, top: y, names: laneNames(lane)});
      for (const [x, piece] of row.placed.filter(([, one]) => one.lane === lane)) {
        spots.push({piece, row: at, x, width: isMark(piece) ? COLUMN : widthOf(piece, layout.tick), top: y});
      }
      y += BAR + GAP;
    }
    out.push(...drawAxis(row, y - 4, layout.tick));
    y += AXIS;
    rows.push([top, y - AXIS]);
    drawings.push(out.join("\n"));
  }
  const [legend, end] = whole.legend ? drawLegend(story, y, layout, whole.span) : [[], y];
  const width = LEFT + whole.span + EDGE, height = end + 4;
  const around = (/** @type {string[]} */ parts) => svgOf(parts, name, width, height, whole.enlarged);
  spots.sort((one, other) => one.row - other.row || one.x - other.x);
  return {svg: around([...head, ...drawings, ...legend]), frame: around(head), drawings, width, height, spots, rows, names};
}
