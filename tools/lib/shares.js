// Shared by the page and the commands: how the turns in a transcript are shared out among the lines of a session that may have made them.

/** How many turns it takes at most, and of how many ticks; without ticks it takes one turn, of any kind.
 * @typedef {[number, number | null]} Taker */
/** Places in the list of turns: from the first to the last of each pair, in rising order.
 * @typedef {[number, number][]} Ranges */

/** For each turn, the place of the first of the turns that are like it and come before it without a gap.
 * @param {(number | null)[]} ticks */
export function startsOf(ticks) {
  /** @type {number[]} */
  const found = [];
  ticks.forEach((one, at) => found.push(at && ticks[at - 1] === one ? found[at - 1] : at));
  return found;
}

/** For each turn, the place after the last of the turns that are like it and follow it without a gap.
 * @param {(number | null)[]} ticks */
export function endsOf(ticks) { return startsOf([...ticks].reverse()).map(start => ticks.length - start).reverse(); }

/** From which places a taker can get to one of these.
 * @param {Ranges} rest
 * @param {Taker} taker
 * @param {(number | null)[]} ticks
 * @param {number[]} begin
 * @returns {Ranges} */
function before(rest, [most, wanted], ticks, begin) {
  if (wanted === null) return rest.filter(([, last]) => last > 0).map(([first, last]) => [Math.max(first - 1, 0), last - 1]);
  /** @type {Ranges} */
  const found = [];
  for (let [first, last] of rest) {
    if (first > 0 && ticks[first - 1] === wanted) first = Math.max(first - most, begin[first - 1]);
    while (found.length && first <= found[found.length - 1][1] + 1) {
      first = Math.min(first, found[found.length - 1][0]);
      found.pop();
    }
    found.push([first, last]);
  }
  return found;
}

/** Which of these ranges is the last one that begins at most at a place.
 * @param {Ranges} ranges
 * @param {number} place */
function lastFrom(ranges, place) {
  let low = 0, high = ranges.length;
  while (low < high) {
    const middle = (low + high) >> 1;
    if (ranges[middle][0] <= place) low = middle + 1; else high = middle;
  }
  return Math.max(low - 1, 0);
}

/** How many turns each taker gets, so that all are taken: the first as many as may be, then the second, and so on. null if they cannot be
 * shared out. Ticks: of each turn; null for one that only a taker of any kind takes.
 * @param {Taker[]} takers
 * @param {(number | null)[]} ticks
 * @returns {number[] | null} */
export function shares(takers, ticks) {
  const begin = startsOf(ticks), end = endsOf(ticks);
  /** @type {Ranges[]} */
  const rests = [[[ticks.length, ticks.length]]];
  for (const taker of [...takers].reverse()) rests.push(before(rests[rests.length - 1], taker, ticks, begin));
  const whole = rests[rests.length - 1];
  if (!whole.length || whole[0][0] > 0) return null;
  const later = rests.slice(0, -1).reverse(), shared = [];
  let at = 0;
  for (let one = 0; one < takers.length; one += 1) {
    const [most, wanted] = takers[one];
    let top = at + 1;
    if (wanted !== null) top = at < ticks.length && ticks[at] === wanted ? Math.min(at + most, end[at]) : at;
    const to = Math.min(top, later[one][lastFrom(later[one], top)][1]);
    shared.push(to - at);
    at = to;
  }
  return shared;
}
