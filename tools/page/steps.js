// The page: the moments of a session as one steps through them: the place of each in the picture, the one to which a step leads, and the
// letters of a line. Nothing here asks the program or the document.

/** @typedef {import("./running.js").Spot} Spot */

/** A moment, with the number of ticks so far and its place in the picture: row, left edge, width, top.
 * @typedef {{line: number, slot: string, letter: string, tick: number, place?: [number, number, number, number]}} Moment */

/** The moments of a session. The outline has of each moment its line, slot and letter; the spots are those of the picture.
 * @param {[number, string, string][]} outline
 * @param {Spot[]} spots
 * @returns {Moment[]} */
export function momentsIn(outline, spots) {
  const runs = spots.filter(spot => spot.count), marks = spots.filter(spot => !spot.count);
  const visible = marks.filter(({kind}) => kind !== "gone" && kind !== "seen");
  let ticks = 0, run = 0, mark = -1;
  return outline.map(([line, slot, letter]) => {
    /** @type {Moment} */
    const moment = {line, slot, letter, tick: letter ? ticks += 1 : ticks};
    if (letter) {
      while (run < runs.length && runs[run].start + runs[run].count < ticks) run += 1;
      if (run < runs.length) {
        const {row, x, width, top, start, count} = runs[run];
        moment.place = [row, x + width / count * (ticks - 1 - start), width / count, top];
      }
    } else {
      while (mark + 1 < visible.length && visible[mark + 1].line <= line) mark += 1;
      if (mark >= 0) moment.place = [visible[mark].row, visible[mark].x, visible[mark].width, visible[mark].top];
    }
    return moment;
  });
}

/** The moment to which a step leads from the one of an index; the same one if there is none.
 * @param {{line: number, letter: string}[]} moments
 * @param {number} here
 * @param {string} step */
export function stepFrom(moments, here, step) {
  const last = moments.length - 1;
  const isEnd = (/** @type {number} */ index) => index === last || moments[index + 1].line !== moments[index].line;
  const isStar = (/** @type {number} */ index) => moments[index].letter === "*";
  const search = (/** @type {number} */ from, /** @type {number} */ by, /** @type {(index: number) => boolean} */ holds) => {
    for (let index = from; index >= 0 && index <= last; index += by) if (holds(index)) return index;
    return here;
  };
  switch (step) {
    case "first": return 0;
    case "last": return last;
    case "tick": return Math.min(here + 1, last);
    case "tick-back": return Math.max(here - 1, 0);
    case "star": return search(here + 1, 1, isStar);
    case "star-back": return search(here - 1, -1, isStar);
    case "line": return search(here + 1, 1, isEnd);
    default: return search(here - 1, -1, isEnd);
  }
}

/** The letters of the line at a moment: those before it and after it, so many at most on each side, and which tick of how many it is. A
 * letter that is left out is "…".
 * @param {{line: number, letter: string}[]} moments
 * @param {number} index
 * @param {number} most */
export function lettersAround(moments, index, most) {
  const isOwn = (/** @type {number} */ other) => moments[other] && moments[other].line === moments[index].line;
  let first = index, end = index + 1;
  while (isOwn(first - 1)) first -= 1;
  while (isOwn(end)) end += 1;
  const from = Math.max(first, index - most), to = Math.min(end, index + 1 + most);
  const text = (/** @type {number} */ start, /** @type {number} */ stop) => moments.slice(start, stop).map(other => other.letter).join("");
  return {before: (from > first ? "…" : "") + text(from, index), after: text(index + 1, to) + (to < end ? "…" : ""),
          tick: index - first + 1, count: end - first};
}
