// The page: the screen of a console: the bytes of the keys that are pressed there, and what the console
// puts out, as a terminal shows it.

import {byId, on} from "./dom.js";

const MOST_SCREEN = 20000;               // characters that a screen keeps
const LAST_KEY = 0o176;
/** @type {Map<string, number>} */
const NAMED = new Map([["Enter", 0o15], ["Backspace", 0o177], ["Escape", 0o33]]);

/** The byte that a key types, or null.
 * @param {KeyboardEvent} event */
export function byteOf(event) {
  if (event.ctrlKey && /^[a-z@[\]\\^_]$/i.test(event.key)) return event.key.toUpperCase().charCodeAt(0) % 32;
  if (event.ctrlKey || event.altKey || event.metaKey) return null;
  if (event.key.length === 1 && event.key.charCodeAt(0) <= LAST_KEY) return event.key.charCodeAt(0);
  const found = NAMED.get(event.key);
  return found === undefined ? null : found;
}

/** A screen: an element that takes keys, in it the text, and a field for a reader who has no keyboard
 * at the screen. */
export class Screen {
  /** @param {string} id
   * @param {(byte: number) => void} press what a key does */
  constructor(id, press) {
    this.id = id;
    this.press = press;
    this.above = this.line = "";         // the lines before the last one, and that
    this.column = 0;
    this.isReturned = false;             // a carriage return has come after something in this line
    on(id, "keydown", event => this.key(event));
    on(id + "-keys", "input", event => this.keys(event));
    on(id + "-keys", "keydown", event => { if (event.key === "Enter" || event.key === "Backspace") this.key(event); });
  }

  /** A key at the screen. Tab leaves it.
   * @param {KeyboardEvent} event */
  key(event) {
    const byte = byteOf(event);
    if (byte === null) return;
    event.preventDefault();
    this.press(byte);
  }

  /** Keys of the field.
   * @param {*} event */
  keys(event) {
    for (const one of event.target.value) if (one.charCodeAt(0) <= LAST_KEY) this.press(one.charCodeAt(0));
    event.target.value = "";
  }

  /** What the screen shows. Blanks after the place of the next character are not shown. */
  get text() {
    const rest = this.line.slice(this.column);
    return this.above + (rest.trim() ? this.line : this.line.slice(0, this.column));
  }

  /** The screen shows this text alone.
   * @param {string} text */
  put(text) {
    this.above = this.line = "";
    this.column = 0;
    this.isReturned = false;
    this.show(text);
  }

  /** Shows what the console puts out, made visible (lib/keys.js).
   * @param {string} text */
  show(text) {
    for (const one of text) this.take(one);
    this.above = this.above.slice(-MOST_SCREEN);
    this.draw();
  }

  /** Takes one character. After a carriage return without a line feed the next one is in a new line:
   * nothing is written over.
   * @param {string} one */
  take(one) {
    if (one === "\n") this.feed();
    else if (one === "\r") [this.column, this.isReturned] = [0, this.line !== ""];
    else if (one === "\b") this.column = Math.max(0, this.column - 1);
    else if (one !== "\x07") {
      if (this.isReturned) this.feed();
      this.line = this.line.slice(0, this.column) + one + this.line.slice(this.column + 1);
      this.column += 1;
    }
  }

  /** A new line. */
  feed() {
    this.above += this.line + "\n";
    this.line = "";
    this.column = 0;
    this.isReturned = false;
  }

  /** Draws the text. What only grows is added to the text that is there, so that a screen reader reads
   * out what is new alone. */
  draw() {
    const place = byId(this.id + "-text"), node = place.firstChild, {text} = this;
    if (node && text.startsWith(node.data)) node.appendData(text.slice(node.data.length));
    else place.textContent = text;
    byId(this.id).scrollTop = byId(this.id).scrollHeight;
  }
}
