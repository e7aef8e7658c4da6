// For the commands, in node: what terminfo says of a terminal (term(5)), as far as a status line needs it.

import {readFileSync} from "node:fs";
import os from "node:os";
import path from "node:path";
import process from "node:process";

/** The places of the means among the texts of an entry, by their names in terminfo. `csr` sets the region
 * that moves, `cup` the place, `sc` and `rc` keep and restore the place, `rev` and `sgr0` begin and end
 * reverse, `el` erases up to the end of the row, `cuu1` goes one row up. */
const PLACES = {csr: 3, cup: 10, sc: 128, rc: 126, rev: 34, sgr0: 39, el: 6, cuu1: 19};

/** @typedef {Record<keyof typeof PLACES, string>} Means */

/** The folders in which entries are. */
function folders() {
  const {TERMINFO, TERMINFO_DIRS} = process.env, dirs = (TERMINFO_DIRS || "").split(":");
  const usual = ["/etc/terminfo", "/lib/terminfo", "/usr/share/terminfo", "/usr/lib/terminfo", "/usr/local/share/terminfo"];
  return [TERMINFO || "", path.join(os.homedir(), ".terminfo"), ...dirs, ...usual].filter(Boolean);
}

/** The entry of a terminal; null if there is none. Its folder has the first letter of its name, or the
 * code of that.
 * @param {string} name */
function entryOf(name) {
  if (!name || name.includes("/")) return null;
  for (const folder of folders()) {
    for (const letter of [name[0], name.charCodeAt(0).toString(16)]) {
      try {
        return readFileSync(path.join(folder, letter, name));
      } catch { /* it is in another folder, or in none */ }
    }
  }
  return null;
}

/** The texts at these places of an entry; null if it has not all of them, or is none.
 * @param {Buffer} entry
 * @returns {Means | null} */
export function meansIn(entry) {
  const short = (/** @type {number} */ at) => at + 1 < entry.length ? entry[at] + 256 * entry[at + 1] : 0xffff;
  const magic = short(0), [names, flags, numbers, texts] = [2, 4, 6, 8].map(short);
  if (magic !== 0o432 && magic !== 0o1036) return null;
  const numbersAt = 12 + names + flags + (names + flags) % 2, offsetsAt = numbersAt + numbers * (magic === 0o432 ? 2 : 4);
  const table = offsetsAt + 2 * texts, found = Object.entries(PLACES).map(([name, place]) => {
    const offset = place < texts ? short(offsetsAt + 2 * place) : 0xffff, end = entry.indexOf(0, table + offset);
    return [name, offset < 0x8000 && end > 0 ? entry.subarray(table + offset, end).toString("latin1") : ""];
  });
  return found.every(([, text]) => text) ? Object.fromEntries(found) : null;
}

/** The means of a terminal; null if it is unknown, or has not all of them.
 * @param {string} name */
export function meansOf(name) {
  const entry = entryOf(name), means = entry && meansIn(entry);
  return means && filled(means.csr, 0, 0) && filled(means.cup, 0, 0) ? means : null;
}

/** One of the means with its numbers and without padding; nothing if it asks for more than sums.
 * @param {string} text
 * @param {...number} numbers */
export function filled(text, ...numbers) {
  /** @type {number[]} */
  const stack = [];
  const given = [...numbers], pop = () => stack.pop() || 0;
  let out = "", isKnown = true;
  for (const [part] of text.replace(/\$<[^>]*>/g, "").matchAll(/%p\d|%\{\d+\}|%'.'|%:?[-+# ]*\d*[dsc]|%.|[^%]+/gs)) {
    const format = /^%:?[-+# ]*(0?)(\d*)d$/.exec(part);
    if (part[0] !== "%") out += part;
    else if (part === "%%") out += "%";
    else if (part === "%i") for (const at of [0, 1]) given[at] += 1;
    else if (/^%p\d/.test(part)) stack.push(given[Number(part[2]) - 1] || 0);
    else if (part[1] === "{") stack.push(Number(part.slice(2, -1)));
    else if (part[1] === "'") stack.push(part.charCodeAt(2));
    else if (part === "%+") stack.push(pop() + pop());
    else if (part === "%-") stack.push(-pop() + pop());
    else if (part === "%c") out += String.fromCharCode(pop());
    else if (format) out += String(pop()).padStart(Number(format[2] || 0), format[1] || " ");
    else isKnown = false;
  }
  return isKnown ? out : "";
}
