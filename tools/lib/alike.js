// Shared by the page and the commands: which words are nearly alike, and in which lines two texts differ. Counted as Python's difflib does.

const ALIKE = 0.6;                       // so much of two words has to fit

/** A part that two sequences have in common: its places, and its length.
 * @typedef {[number, number, number]} Common */

/** The longest common part of two sequences between these places; of several, the first one.
 * @template T
 * @param {ArrayLike<T>} one
 * @param {Map<T, number[]>} places where each item of the other one is
 * @param {[number, number, number, number]} within
 * @returns {Common} */
function longestCommon(one, places, [from, to, otherFrom, otherTo]) {
  /** @type {Common} */
  let best = [from, otherFrom, 0];
  /** @type {Map<number, number>} */
  let lengths = new Map();
  for (let at = from; at < to; at += 1) {
    /** @type {Map<number, number>} */
    const next = new Map();
    for (const place of places.get(one[at]) || []) {
      if (place < otherFrom) continue;
      if (place >= otherTo) break;
      const size = (lengths.get(place - 1) || 0) + 1;
      next.set(place, size);
      if (size > best[2]) best = [at - size + 1, place - size + 1, size];
    }
    lengths = next;
  }
  return best;
}

/** The parts that two sequences have in common, in their order: the longest one, and so on at its left and right.
 * @template T
 * @param {ArrayLike<T>} one
 * @param {ArrayLike<T>} other
 * @returns {Common[]} */
function commonParts(one, other) {
  /** @type {Map<T, number[]>} */
  const places = new Map();
  for (let at = 0; at < other.length; at += 1) {
    const own = places.get(other[at]);
    if (own) own.push(at); else places.set(other[at], [at]);
  }
  const usual = Math.floor(other.length / 100) + 1;
  if (other.length >= 200) for (const [item, own] of [...places]) if (own.length > usual) places.delete(item);
  /** @type {Common[]} */
  const found = [];
  /** @type {[number, number, number, number][]} */
  const waiting = [[0, one.length, 0, other.length]];
  while (waiting.length) {
    const [from, to, otherFrom, otherTo] = /** @type {[number, number, number, number]} */ (waiting.pop());
    let [at, place, size] = longestCommon(one, places, [from, to, otherFrom, otherTo]);
    while (at > from && place > otherFrom && one[at - 1] === other[place - 1]) [at, place, size] = [at - 1, place - 1, size + 1];
    while (at + size < to && place + size < otherTo && one[at + size] === other[place + size]) size += 1;
    if (!size) continue;
    found.push([at, place, size]);
    if (from < at && otherFrom < place) waiting.push([from, at, otherFrom, place]);
    if (at + size < to && place + size < otherTo) waiting.push([at + size, to, place + size, otherTo]);
  }
  return found.sort((first, second) => first[0] - second[0]);
}

/** The words that are most alike, the best one first; each has to be alike enough.
 * @param {string} word
 * @param {Iterable<string>} known
 * @param {number} [most] */
export function alike(word, known, most = 1) {
  const rated = [...known].map(one => {
    const fits = commonParts(one, word).reduce((sum, [, , size]) => sum + size, 0);
    return /** @type {[number, string]} */ ([one.length + word.length ? 2 * fits / (one.length + word.length) : 1, one]);
  });
  return rated.filter(([ratio]) => ratio >= ALIKE).sort((one, other) => other[0] - one[0] || (one[1] < other[1] ? 1 : -1))
    .slice(0, most).map(([, one]) => one);
}

/** "; is it NAME?" if one of the known words is nearly alike, else nothing.
 * @param {string} word
 * @param {Iterable<string>} known */
export function isItOf(word, known) {
  const [near] = alike(word, known);
  return near ? "; is it " + near + "?" : "";
}

/** The steps from one list of lines to another: equal or not, and the places in both.
 * @param {string[]} one
 * @param {string[]} other
 * @returns {{same: boolean, from: number, to: number, otherFrom: number, otherTo: number}[]} */
function steps(one, other) {
  const found = [];
  let at = 0, place = 0;
  for (const [start, otherStart, size] of [...commonParts(one, other), /** @type {Common} */ ([one.length, other.length, 0])]) {
    if (at < start || place < otherStart) found.push({same: false, from: at, to: start, otherFrom: place, otherTo: otherStart});
    if (size) found.push({same: true, from: start, to: start + size, otherFrom: otherStart, otherTo: otherStart + size});
    [at, place] = [start + size, otherStart + size];
  }
  return merged(found);
}

/** Equal steps that follow each other directly, as one.
 * @param {{same: boolean, from: number, to: number, otherFrom: number, otherTo: number}[]} found */
function merged(found) {
  /** @type {typeof found} */
  const out = [];
  for (const step of found) {
    const last = out[out.length - 1];
    if (last && last.same && step.same && last.to === step.from && last.otherTo === step.otherFrom) {
      [last.to, last.otherTo] = [step.to, step.otherTo];
    } else out.push(step);
  }
  return out;
}

/** The lines of a range of a difference, as its head names them.
 * @param {number} from
 * @param {number} to */
function rangeOf(from, to) {
  const size = to - from;
  return size === 1 ? String(from + 1) : (size ? from + 1 : from) + "," + size;
}

/** The lines in which two texts differ, with so many equal lines around them: - for the first one, + for the second one.
 * @param {string[]} one
 * @param {string[]} other
 * @param {string[]} names of the two
 * @param {number} [around] */
export function difference(one, other, names, around = 3) {
  const out = [], all = steps(one, other), changes = all.filter(step => !step.same);
  for (let first = 0; first < changes.length;) {
    let last = first;
    while (last + 1 < changes.length && changes[last + 1].from - changes[last].to <= 2 * around) last += 1;
    const from = Math.max(changes[first].from - around, 0), to = Math.min(changes[last].to + around, one.length);
    const otherFrom = changes[first].otherFrom - (changes[first].from - from), otherTo = changes[last].otherTo + (to - changes[last].to);
    if (!out.length) out.push("--- " + names[0], "+++ " + names[1]);
    out.push("@@ -" + rangeOf(from, to) + " +" + rangeOf(otherFrom, otherTo) + " @@");
    let at = from;
    for (const change of changes.slice(first, last + 1)) {
      out.push(...one.slice(at, change.from).map(line => " " + line), ...one.slice(change.from, change.to).map(line => "-" + line),
               ...other.slice(change.otherFrom, change.otherTo).map(line => "+" + line));
      at = change.to;
    }
    out.push(...one.slice(at, to).map(line => " " + line));
    first = last + 1;
  }
  return out;
}
