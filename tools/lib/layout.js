// Shared by the page and the commands: the layout of a picture: rows of pieces, each with its place.

import {isMark} from "./story.js";

/** @typedef {import("./story.js").Lane} Lane */
/** @typedef {import("./story.js").Mark} Mark */
/** @typedef {import("./story.js").Run} Run */
/** @typedef {import("./story.js").Piece} Piece */
/** @typedef {import("./story.js").Story} Story */

export const LEFT = 150, EDGE = 16;             // where rows begin, and the margin
export const COLUMN = 16;                       // the width of a mark
export const LONGEST = 320;                     // the width of a run; a longer one is drawn so wide, with a break
const MANY = 4;                                 // up to so many equal lines in a row have a mark each
export const BAR = 18, GAP = 12, AXIS = 26;     // the height of a bar, the room below it, and the room for numbers below a row
const LABELS = [36, 24, 7];                     // the longest label of a mark, in characters: whole labels if there is room for them
export const CHAR = 6.7;                        // the width of a character of 11 px
const SCALES = [40, 32, 24, 20, 16, 14, 12, 10, 8, 6, 5, 4, 3, 2, 1.5, 1, 0.5, 0.25];     // widths of a tick
const COMFORT = 10;                             // a tick need not be wider than this, if that would take one row more
const NARROW = 3;                               // with labels of more than one word, ticks are at least so wide
const HIGHER = 1.15;                            // so much higher a picture may grow by whole labels; a slide may not
const ALWAYS = 6;                               // up to so many jobs, each row shows all that there are then

/** What a picture should look like: how wide rows are, how high all rows together should be, how wide a tick may be, how much larger all
 * is drawn, whether what letters and marks mean is below, and whether marks have their first word alone. */
export const SHAPE = {span: 1020, tallest: 900, widest: 16, enlarged: 1, legend: true, brief: false};
/** @typedef {typeof SHAPE} Shape */

/** A row of the picture: pieces with their left edge, and where it ends.
 * @typedef {{placed: [number, Piece][], end: number}} Row */
/** A row and a place in it.
 * @typedef {[number, number]} Place */
/** The part of the rows in which a job is there for certain: it was made or seen first, seen last, and seen to be gone; that is past the last
 * row if it never was.
 * @typedef {{begins: Place, ends: Place, gone: Place}} Life */
/** The rows, the lanes of each (null is the operator's), the width of a tick and the longest label.
 * @typedef {{rows: Row[], lanes: (Lane | null)[][], tick: number, longest: number}} Layout */

/** How wide a run is drawn.
 * @param {Run} run
 * @param {number} tick */
export function widthOf(run, tick) { return Math.min(run.count * tick, LONGEST); }

/** The part of the rows in which the job of each lane exists for certain.
 * @param {Row[]} rows
 * @param {number} tick */
export function livesOf(rows, tick) {
  /** @type {Map<Lane, Life>} */
  const lives = new Map();
  rows.forEach((row, at) => row.placed.forEach(([x, piece]) => {
    if (!piece.lane) return;
    /** @type {Life} */
    const life = lives.get(piece.lane) || {begins: [0, LEFT], ends: [0, LEFT], gone: [rows.length, 0]};
    lives.set(piece.lane, life);
    if (!isMark(piece)) {
      if (piece.letter !== "-") life.ends = [at, x + widthOf(piece, tick)];
    } else if (["made", "seen"].includes(piece.kind)) life.begins = life.ends = [at, x + COLUMN / 2];
    else if (piece.kind === "gone") life.gone = [at, x + COLUMN / 2];
    else life.ends = [at, x + COLUMN / 2];
  }));
  return lives;
}

/** The left and the right end of what is in a row, which ends at `end`, of the part between two places; null if nothing is.
 * @param {number} row
 * @param {Place} since
 * @param {Place} until
 * @param {number} end
 * @returns {[number, number] | null} */
export function partOf(row, since, until, end) {
  if (row < since[0] || row > until[0]) return null;
  return [since[0] === row ? since[1] : LEFT, until[0] === row ? until[1] : end];
}

/** The longest label of a mark that is not too long. If each is, the shortest one, cut at the middle length.
 * @param {Mark} mark
 * @param {number} longest */
export function cutLabel(mark, longest) {
  const label = mark.labels.find(one => one.length <= longest) || mark.labels[mark.labels.length - 1];
  const most = Math.max(longest, LABELS[1]);
  return label.length <= most ? label : label.slice(0, most - 1) + "…";
}

/** The first word of the line of a mark.
 * @param {Mark} mark */
function firstWord(mark) { return mark.tip.split(" ")[0]; }

/** Whether two pieces are marks of the same lines on the same job.
 * @param {Piece} one
 * @param {Piece} other */
function isAlike(one, other) {
  return isMark(one) && isMark(other) && one.lane === other.lane && one.kind === other.kind &&
    ["disturb", "look", "other"].includes(one.kind) && firstWord(one) === firstWord(other);
}

/** The label of one mark in place of many: with TYPE and DRAIN, on which consoles.
 * @param {Mark[]} marks */
function labelOfMany(marks) {
  const word = firstWord(marks[0]), consoles = [...new Set(marks.map(mark => mark.tip.split(" ")[1]))].sort();
  const last = consoles[consoles.length - 1], which = consoles.length === 1 ? last : consoles[0] + "-" + last;
  return marks.length + " × " + word + (["TYPE", "DRAIN"].includes(word) ? " " + which : "");
}

/** The pieces, with one mark in place of many equal lines in a row.
 * @param {Piece[]} pieces */
export function gathered(pieces) {
  /** @type {Piece[]} */
  const out = [];
  for (let at = 0, end; at < pieces.length; at = end) {
    end = at + 1;
    while (end < pieces.length && isAlike(pieces[at], pieces[end])) end += 1;
    if (end - at <= MANY) out.push(...pieces.slice(at, end));
    else {
      const marks = /** @type {Mark[]} */ (pieces.slice(at, end)), label = labelOfMany(marks);
      const tip = label + ": from '" + marks[0].tip + "' to '" + marks[marks.length - 1].tip + "'";
      out.push({...marks[0], labels: [label], tip});
    }
  }
  return out;
}

/** The pieces in rows, if a tick has this width. A run that meets the end of its row goes on in the next one; a run with a break is not
 * split.
 * @param {Piece[]} pieces
 * @param {number} tick
 * @param {number} span */
export function rowsOf(pieces, tick, span) {
  /** @type {Row[]} */
  const rows = [{placed: [], end: LEFT}];
  const last = () => rows[rows.length - 1], begin = () => rows.push({placed: [], end: LEFT});
  const put = (/** @type {Piece} */ piece, /** @type {number} */ width) => {
    last().placed.push([last().end, piece]);
    last().end += width;
  };
  for (const piece of pieces) {
    if (isMark(piece) || piece.count * tick > LONGEST) {
      const width = isMark(piece) ? COLUMN : LONGEST;
      if (last().end + width > LEFT + span) begin();
      put(piece, width);
      continue;
    }
    for (let done = 0; done < piece.count;) {
      const room = Math.floor((LEFT + span - last().end) / tick);
      if (room <= 0) {
        begin();
        continue;
      }
      const count = Math.min(room, piece.count - done);
      put({...piece, count, start: piece.start + done}, count * tick);
      done += count;
    }
  }
  return rows;
}

/** For each row its lanes: those with a piece in it; and, if jobs are few, all that live then.
 * @param {Story} story
 * @param {Row[]} rows */
function lanesOfRows(story, rows) {
  /** @type {Map<Lane, [number, number]>} */
  const seen = new Map();              // the first and the last row of each
  rows.forEach((row, at) => row.placed.forEach(([, {lane}]) => {
    if (lane) seen.set(lane, [(seen.get(lane) || [at])[0], at]);
  }));
  const gone = new Set(story.pieces.filter(piece => isMark(piece) && piece.kind === "gone").map(piece => piece.lane));
  const order = [...story.lanes].sort((one, other) => one.slot - other.slot);
  return rows.map((row, at) => {
    const touched = new Set(row.placed.map(([, {lane}]) => lane)), living = order.filter(lane => {
      const [first, last] = seen.get(lane) || [Infinity, Infinity];
      return first <= at && (!gone.has(lane) || at <= last);
    });
    const keep = new Set([...(living.length <= ALWAYS ? living : []), ...touched]);
    return [...(touched.has(null) ? [null] : []), ...order.filter(lane => keep.has(lane))];
  });
}

/** The height of the labels over each lane in a row.
 * @param {Row} row
 * @param {(Lane | null)[]} lanes
 * @param {number} longest */
export function headsOf(row, lanes, longest) {
  /** @type {Map<Lane | null, number>} */
  const most = new Map();
  for (const [, piece] of row.placed) {
    if (isMark(piece)) most.set(piece.lane, Math.max(most.get(piece.lane) || 0, cutLabel(piece, longest).length));
  }
  return lanes.map(lane => most.has(lane) ? CHAR * (most.get(lane) || 0) + 14 : 8);
}

/** The height of all rows.
 * @param {Layout} layout */
function heightOf(layout) {
  return layout.rows.reduce((sum, row, at) =>
    sum + (headsOf(row, layout.lanes[at], layout.longest).reduce((own, head) => own + (head + BAR + GAP), 0) + AXIS), 0);
}

/** The layout of a story with a width of a tick and a longest label.
 * @param {Story} story
 * @param {Piece[]} pieces
 * @param {number} tick
 * @param {number} longest
 * @param {number} span
 * @returns {Layout} */
function laidOutSo(story, pieces, tick, longest, span) {
  const rows = rowsOf(pieces, tick, span);
  return {rows, lanes: lanesOfRows(story, rows), tick, longest};
}

/** The layout with whole labels, if that makes the picture little higher.
 * @param {Story} story
 * @param {Piece[]} pieces
 * @param {Layout} layout
 * @param {Shape} shape */
function withWords(story, pieces, layout, shape) {
  if (layout.longest !== LABELS[1]) return layout;
  const whole = laidOutSo(story, pieces, layout.tick, LABELS[0], shape.span);
  const most = Math.max(shape.tallest, heightOf(layout));
  return heightOf(whole) <= (shape.enlarged > 1 ? most : HIGHER * most) ? whole : layout;
}

/** The layout of a story. Whole labels and wide ticks are best, as long as the picture does not grow too high; if it does in any case,
 * ticks are as wide as costs little height.
 * @param {Story} story
 * @param {Shape} shape */
export function laidOut(story, shape) {
  const pieces = gathered(story.pieces), fewest = rowsOf(pieces, COMFORT, shape.span).length;
  /** @type {[number, Layout][]} */
  const layouts = [];
  for (const longest of LABELS.slice(shape.brief ? 2 : 1)) {
    for (const tick of SCALES.filter(one => one <= shape.widest)) {
      if (longest === LABELS[1] && tick < NARROW) continue;
      const layout = laidOutSo(story, pieces, tick, longest, shape.span), height = heightOf(layout);
      if (height <= shape.tallest && (tick <= COMFORT || layout.rows.length === fewest)) return withWords(story, pieces, layout, shape);
      layouts.push([height, layout]);
    }
  }
  const lowest = Math.min(...layouts.map(([height]) => height));
  const found = /** @type {[number, Layout]} */ (layouts.find(([height]) => height <= 1.25 * lowest));
  return withWords(story, pieces, found[1], shape);
}
