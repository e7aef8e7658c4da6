// Shared by the page and the commands: the keys of a console by their names, and what is shown of what a
// job puts out.

const MOVES = [0o7, 0o10, 0o11, 0o12, 0o15];     // bell, backspace, tab, line feed and carriage return
const ALTMODE = 0o33;                            // is shown as ITS shows it, by a dollar sign

/** What a job puts out, in the form that is shown: printing characters and the five controls that move
 * a carriage or ring a bell. No byte of it begins a command of the terminal.
 * @param {Iterable<number>} output */
export function visible(output) {
  return [...output].map(byte => MOVES.includes(byte) ? String.fromCharCode(byte) : byte === ALTMODE ? "$" : byte ? caret(byte) : "").join("");
}

/** The code of a key: one character, or ^ and a character for a control key; null if it is none.
 * @param {string} text */
export function keyOf(text) {
  const code = text.charCodeAt(0), upper = (text[1] || "").toUpperCase();
  if (text.length === 1 && code > 0 && code < 128) return code;
  return text.length === 2 && text[0] === "^" && upper > "@" && upper <= "_" ? upper.charCodeAt(0) - 64 : null;
}

/** A key, as a person calls it.
 * @param {number} code */
export function keyName(code) {
  return code < 32 ? "Control-" + String.fromCharCode(code + 64) : code === 127 ? "Rubout" : String.fromCharCode(code);
}

/** A key in two characters at most.
 * @param {number} code */
export function caret(code) { return code < 32 || code === 127 ? "^" + String.fromCharCode(code ^ 64) : String.fromCharCode(code); }
