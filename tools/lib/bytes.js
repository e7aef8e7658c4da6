// Shared by the page and the commands: texts as bytes. A text that the program gets or gives is a string with one character for each byte.

import {octal} from "./words.js";

/** Why a line is refused, and the place: the column counts bytes from 1, and is 0 if no place in the line is meant.
 * @typedef {{text: string, column: number}} Cause */

/** A cause.
 * @param {string} text
 * @returns {Cause} */
export function cause(text, column = 0) { return {text, column}; }

/** A text with one character for each byte, as bytes.
 * @param {string} text */
export function bytesOf(text) {
  const bytes = new Uint8Array(text.length);
  for (let at = 0; at < text.length; at += 1) bytes[at] = text.charCodeAt(at);
  return bytes;
}

/** Bytes as a text with one character for each of them.
 * @param {Uint8Array} bytes */
export function textOfBytes(bytes) {
  const parts = [];
  for (let at = 0; at < bytes.length; at += 8192) parts.push(String.fromCharCode(...bytes.subarray(at, at + 8192)));
  return parts.join("");
}

/** A text of any characters as its bytes in UTF-8, one character for each byte.
 * @param {string} text */
export function encoded(text) { return textOfBytes(new TextEncoder().encode(text)); }

/** A text of bytes with the characters that they are in UTF-8; a byte that is in none is shown as "�".
 * @param {string} text */
export function decoded(text) { return new TextDecoder().decode(bytesOf(text)); }

/** The first byte that may be in no line.
 * @param {string} text
 * @returns {Cause | null} */
export function badByte(text) {
  if (text.startsWith("\xef\xbb\xbf")) return cause("a byte order mark is before the text: tail -c +4 FILE > NEW takes it away", 1);
  for (let at = 0; at < text.length; at += 1) {
    const one = text[at];
    if (one === "\r") {
      return cause("a carriage return: lines end with LF alone, and not with CR and LF; tr -d '\\r' < FILE > NEW converts it", at + 1);
    }
    if (one === "\t") {
      return cause("a tab: words are parted by spaces alone, in comments too; expand FILE > NEW converts them", at + 1);
    }
    if (one > "~" || one < " ") return cause(foreign(text.slice(at)), at + 1);
  }
  return null;
}

/** A byte that is no printing ASCII, and the character that it begins, if it begins one.
 * @param {string} rest */
export function foreign(rest) {
  const decoder = new TextDecoder("utf-8", {fatal: true, ignoreBOM: true});
  for (const size of rest.charCodeAt(0) > 127 ? [2, 3, 4] : []) {
    try {
      return "a byte that is no ASCII: it begins the character " + decoder.decode(bytesOf(rest.slice(0, size)));
    } catch { /* so many bytes are no character */ }
  }
  return "a byte that is no printing character of ASCII, " + octal(rest.charCodeAt(0)) + " in octal";
}

/** Why a word is no name.
 * @param {string} word
 * @param {number} column */
export function noName(word, column) {
  for (let at = 0; at < word.length; at += 1) {
    const one = word[at];
    if (one >= "a" && one <= "z") return cause("lower case in the name '" + word + "': write " + word.toUpperCase(), column + at);
    if (one < "!" || one > "_") return cause("'" + one + "' may not occur in a name", column + at);
  }
  return word.length > 6 ? cause("a name of " + word.length + " letters: it may have 6", column + 6) : null;
}
