// The page: a text field whose text may be long. A browser needs a second and more to lay out 100,000 lines, and needs it again at each key. So
// the text area contains a window of the text, and buttons go to earlier and later lines. A text area turns each carriage return into a line
// feed; so that a text is judged as it is, the field shows a carriage return as ␍.

import {atLine, numbered} from "../lib/session.js";
import {countOf} from "../lib/words.js";
import {buttonOf, byId, element, noteOf} from "./dom.js";

const WINDOW = 1000;                     // lines in the text area; a window that was typed in may have twice as many
const LINE_HEIGHT = 19;                  // pixels (page.css)
const RETURN = "␍";                      // how a carriage return is shown

/** How many line feeds a text has.
 * @param {string} text */
function lineFeeds(text) {
  let count = 0;
  for (let at = text.indexOf("\n"); at >= 0; at = text.indexOf("\n", at + 1)) count += 1;
  return count;
}

/** The place after so many more line feeds of a text; its end, if it has fewer.
 * @param {string} text
 * @param {number} from
 * @param {number} count */
function afterLines(text, from, count) {
  let at = from;
  for (let one = 0; one < count; one += 1) {
    const found = text.indexOf("\n", at);
    if (found < 0) return text.length;
    at = found + 1;
  }
  return at;
}

/** From which to which of so many lines something is shown.
 * @param {number} first
 * @param {number} last
 * @param {number} all */
export function rangeText(first, last, all) { return atLine(first) + " to " + atLine(last) + " of " + all; }

/** The first lines of a text, and how many there are more, if it is long.
 * @param {string} text */
export function beginningOf(text) {
  const end = afterLines(text, 0, WINDOW), rest = lineFeeds(text.slice(end));
  return rest ? text.slice(0, end) + "and " + countOf(rest, "line") + " more\n" : text;
}

/** A text field. */
class Field {
  /** @param {string} id */
  constructor(id) {
    this.id = id;
    this.area = byId(id);
    this.gutter = byId(id + "-gutter");
    this.before = this.after = "";
    this.linesBefore = this.linesAfter = 0;
    this.numbers = element("span", "numbers");
    this.gutter.append(this.numbers);
    this.which = element("span");
    this.earlier = buttonOf("Earlier lines", () => this.show(this.linesBefore));
    this.later = buttonOf("Later lines", () => this.show(this.lastLine() + 1));
    this.paging = element("p", "paging", this.earlier, this.which, this.later);
    this.paging.title = "The field shows a part of a long text. All of it is run and saved.";
    this.gutter.parentElement.before(this.paging);
    this.area.addEventListener("input", () => this.typed());
    this.area.addEventListener("scroll", () => this.number());
    this.area.addEventListener("paste", (/** @type {ClipboardEvent} */ event) => this.pasted(event, event.clipboardData));
    new ResizeObserver(() => this.number()).observe(this.area);
    this.page();
  }

  get text() { return (this.before + this.area.value + this.after).replaceAll(RETURN, "\r"); }
  set text(text) { this.put(text, 1); }

  /** The number of the last line in the text area. */
  lastLine() { return this.linesBefore + lineFeeds(this.area.value) + 1; }

  /** The number of the line with the cursor. */
  lineHere() { return this.linesBefore + lineFeeds(this.area.value.slice(0, this.area.selectionStart)) + 1; }

  /** Puts a text into the field, with the window that contains a line.
   * @param {string} text
   * @param {number} line */
  put(text, line) {
    const whole = text.replaceAll("\r", RETURN);
    const first = Math.max(0, Math.floor((Math.min(line, lineFeeds(whole) + 1) - 1) / WINDOW) * WINDOW);
    const start = afterLines(whole, 0, first), next = afterLines(whole, start, WINDOW), isEnd = next === whole.length;
    const end = isEnd ? next : next - 1;      // the line feed between two windows is in neither
    this.before = whole.slice(0, start);
    this.after = whole.slice(end);
    this.linesBefore = first;
    this.linesAfter = lineFeeds(this.after);
    this.area.value = whole.slice(start, end);
    this.area.scrollTop = 0;
    this.page();
  }

  /** Shows the window that contains a line.
   * @param {number} line */
  show(line) { this.put(this.text, line); }

  /** What is shown of a long text, and the numbers of the lines. */
  page() {
    this.paging.hidden = !this.before && !this.after;
    this.earlier.disabled = !this.before;
    this.later.disabled = !this.after;
    this.which.textContent = rangeText(this.linesBefore + 1, this.lastLine(), this.lastLine() + this.linesAfter);
    this.number();
  }

  /** Numbers the lines that are in sight. */
  number() {
    const top = this.area.scrollTop, from = this.linesBefore + Math.floor(top / LINE_HEIGHT) + 1;
    const count = Math.min(Math.ceil(this.area.clientHeight / LINE_HEIGHT) + 1, this.lastLine() - from + 1);
    this.numbers.textContent = Array.from({length: Math.max(0, count)}, (_, at) => numbered(from + at)).join("\n");
    this.numbers.style.marginTop = -(top % LINE_HEIGHT) + "px";
    this.gutter.style.width = "calc(" + numbered(this.lastLine() + this.linesAfter).length + "ch + 14px)";
  }

  /** The text area was changed. If it has too many lines now, the window around the cursor is shown. */
  typed() {
    if (lineFeeds(this.area.value) >= 2 * WINDOW) this.putAt(this.text, this.before.length + this.area.selectionStart);
    this.page();
  }

  /** Puts a text into the field, with the cursor at this place in the text.
   * @param {string} text
   * @param {number} place */
  putAt(text, place) {
    this.put(text, lineFeeds(text.slice(0, place)) + 1);
    this.area.setSelectionRange(place - this.before.length, place - this.before.length);
    this.area.scrollTop = (lineFeeds(this.area.value.slice(0, this.area.selectionStart)) - 3) * LINE_HEIGHT;
  }

  /** A text is pasted. A clipboard may have a carriage return at each end of a line, which no file need have: they are left out, and named. A long
   * text is put in without the text area, which would lay it all out.
   * @param {Event} event
   * @param {DataTransfer | null} transfer */
  pasted(event, transfer) {
    const given = transfer ? transfer.getData("text/plain") : "", more = given.replace(/\r\n?/g, "\n");
    if (more !== given) noteOf("The clipboard has carriage returns, which are left out. To have a text judged with them, open its file.");
    if (lineFeeds(more) < WINDOW) return;
    event.preventDefault();
    const {value, selectionStart, selectionEnd} = this.area, start = this.before + value.slice(0, selectionStart) + more;
    this.putAt(start + value.slice(selectionEnd) + this.after, start.length);
    this.area.dispatchEvent(new Event("input"));
  }

  /** Selects a line, and brings it into sight.
   * @param {number} line */
  select(line) {
    if (line <= this.linesBefore || line > this.lastLine()) this.show(line);
    const own = line - this.linesBefore, start = afterLines(this.area.value, 0, own - 1), end = this.area.value.indexOf("\n", start);
    this.area.focus();
    this.area.setSelectionRange(start, end < 0 ? this.area.value.length : end);
    this.area.scrollTop = (own - 4) * LINE_HEIGHT;
  }
}

/** The text fields of the page by their ids.
 * @type {Record<string, Field>} */
export const fields = Object.fromEntries(["text", "source", "verify-session", "verify-transcript"].map(id => [id, new Field(id)]));
