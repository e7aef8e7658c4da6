// Shared by the page and the commands: what the turns of a RUN show: that no job has a step any more, or which jobs compute.

/** @typedef {import("./turns.js").Turn} Turn */

/** The slots of the jobs that run, if none of them has a step any more: from some turn on each one waits, up to one of a job that had such a turn
 * before; or no job runs. Else null.
 * @param {Turn[]} turns
 * @returns {Set<number> | null} */
export function restingIn(turns) {
  /** @type {Set<number>} */
  const slots = new Set();
  for (let at = turns.length - 1; at >= 0 && !/[^w]/.test(turns[at].letters); at -= 1) {
    if (slots.has(turns[at].slot)) return slots;
    slots.add(turns[at].slot);
  }
  return turns.length ? null : slots;
}

/** The slots of the jobs that took a step or did work of the monitor at each tick of their last turn.
 * @param {Turn[]} turns */
export function slotsThatCompute(turns) {
  const last = new Map(turns.map(({slot, letters}) => [slot, letters]));
  return [...last].filter(([, letters]) => !/[w-]/.test(letters)).map(([slot]) => slot);
}
