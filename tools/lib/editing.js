// Shared by the page and the commands: a line that a person edits at a terminal, key by key. The line is
// drawn with printing characters, backspaces and blanks alone, so it needs no command of the terminal.
// Of a line that is longer than the window, the part with the cursor is shown.

/** What keys do, by their codes.
 * @type {Record<number, string>} */
const CONTROLS = {1: "home", 2: "left", 3: "giveUp", 4: "erase", 5: "last", 6: "right", 8: "rubout", 9: "complete", 10: "enter", 11: "cutRest",
                  13: "enter", 14: "newer", 16: "older", 21: "cutBefore", 23: "cutWord", 25: "paste", 28: "quit", 127: "rubout"};

/** What keys do that send more than one byte, by what follows their escape.
 * @type {Record<string, string>} */
const COMMANDS = {"[A": "older", "[B": "newer", "[C": "right", "[D": "left", "[H": "home", "[F": "last", "OA": "older", "OB": "newer", OC: "right",
                  OD: "left", OH: "home", OF: "last", "[1~": "home", "[7~": "home", "[4~": "last", "[8~": "last", "[3~": "erase",
                  "[1;5C": "wordRight", "[1;5D": "wordLeft", f: "wordRight", b: "wordLeft", d: "cutWordRight", "\x7f": "cutWord"};
const BEGUN = /^(|\[[0-9;]*|O)$/;        // what may follow an escape before the command is whole

export const LINE = "line", END = "end", GIVEN_UP = "given up", QUIT = "quit";

/** Words in rows of so many columns.
 * @param {string[]} words
 * @param {number} columns */
function rowsOf(words, columns) {
  const rows = [""];
  for (const word of words.map(one => one.trim())) {
    const row = rows[rows.length - 1], longer = row ? row + "  " + word : word;
    if (row && longer.length > columns) rows.push(word); else rows[rows.length - 1] = longer;
  }
  return rows.map(row => row + "\r\n").join("");
}

/** Lines that a person edits, with the earlier ones. */
export class Editor {
  /** @param {string} prompt
   * @param {(before: string, word: string) => string[]} completed the words that begin so, after what
   * is before them in the line */
  constructor(prompt, completed) {
    this.prompt = prompt;
    this.completed = completed;
    /** @type {string[]} */
    this.history = [];
    this.cut = "";                       // what was taken out last
    this.width = 0;
    /** @type {string[]} */
    this.text = [];                      // its characters
    this.at = 0;                         // the place of the cursor in it
    this.first = 0;                      // the first character that is shown
    /** @type {string[]} */
    this.seen = [];                      // what the terminal shows
    this.seenAt = 0;                     // the place of the cursor there
    this.past = 0;                       // which earlier line it is now
    this.draft = "";                     // the line, while an earlier one is shown
    /** @type {string | null} */
    this.command = null;                 // what came of a key that sends more than one byte
    this.decoder = new TextDecoder();
    this.done = "";                      // how it ended, once it has
  }

  /** The next line begins: what is written.
   * @param {number} columns of the window */
  begin(columns) {
    this.width = Math.max(columns - this.prompt.length - 1, 1);
    this.text = [];
    this.seen = [];
    this.at = this.first = this.seenAt = 0;
    this.past = this.history.length;
    this.draft = this.done = "";
    this.command = null;
    this.decoder = new TextDecoder();
    return this.prompt;
  }

  /** The line. */
  get line() { return this.text.join(""); }

  /** One more byte of the keyboard: what is written.
   * @param {number} byte
   * @returns {string} */
  key(byte) {
    if (this.command !== null) return this.commandKey(byte);
    if (byte === 27) {
      this.command = "";
      return "";
    }
    if (byte < 32 || byte === 127) return CONTROLS[byte] ? this.act(CONTROLS[byte]) : "";
    const typed = this.decoder.decode(Uint8Array.of(byte), {stream: true});
    if (typed) this.insert(typed);
    return this.drawn();
  }

  /** One more byte of a key that sends more than one.
   * @param {number} byte */
  commandKey(byte) {
    const so = this.command + String.fromCharCode(byte);
    this.command = BEGUN.test(so) ? so : null;
    return this.command === null && COMMANDS[so] ? this.act(COMMANDS[so]) : "";
  }

  /** Does what a key is for: what is written.
   * @param {string} what */
  act(what) {
    if (what === "complete") return this.complete();
    if (["enter", "giveUp", "quit"].includes(what) || what === "erase" && !this.text.length) return this.finish(what);
    const {at, text} = this, end = text.length;
    if (what === "older" || what === "newer") this.recall(what === "older" ? -1 : 1);
    else if (what === "paste") this.insert(this.cut);
    else if (what === "rubout") this.take(Math.max(at - 1, 0), at, false);
    else if (what === "erase") this.take(at, Math.min(at + 1, end), false);
    else if (what === "cutRest") this.take(at, end, true);
    else if (what === "cutBefore") this.take(0, at, true);
    else if (what === "cutWord") this.take(this.wordFrom(-1), at, true);
    else if (what === "cutWordRight") this.take(at, this.wordFrom(1), true);
    else this.at = {home: 0, last: end, left: Math.max(at - 1, 0), right: Math.min(at + 1, end), wordLeft: this.wordFrom(-1),
                    wordRight: this.wordFrom(1)}[what] || 0;
    return this.drawn();
  }

  /** The line is over: what is written. A line that is not empty is kept.
   * @param {string} what */
  finish(what) {
    const line = this.line;
    this.at = this.text.length;
    const drawn = this.drawn();
    this.done = {enter: LINE, giveUp: GIVEN_UP, quit: QUIT}[what] || END;
    if (what === "enter" && line && this.history[this.history.length - 1] !== line) this.history.push(line);
    return drawn + "\r\n";
  }

  /** Puts characters at the cursor.
   * @param {string} typed */
  insert(typed) {
    const some = [...typed];
    this.text.splice(this.at, 0, ...some);
    this.at += some.length;
  }

  /** Takes characters out.
   * @param {number} from
   * @param {number} until
   * @param {boolean} isKept whether they may be put back */
  take(from, until, isKept) {
    const taken = this.text.splice(from, until - from).join("");
    if (isKept && taken) this.cut = taken;
    this.at = from;
  }

  /** The place of the next word, or of the one before.
   * @param {1 | -1} step */
  wordFrom(step) {
    const isBlank = (/** @type {number} */ at) => this.text[step > 0 ? at : at - 1] === " ";
    const end = step > 0 ? this.text.length : 0;
    let at = this.at;
    while (at !== end && isBlank(at)) at += step;
    while (at !== end && !isBlank(at)) at += step;
    return at;
  }

  /** An earlier line, or a later one.
   * @param {number} step */
  recall(step) {
    const past = this.past + step;
    if (past < 0 || past > this.history.length) return;
    if (this.past === this.history.length) this.draft = this.line;
    this.past = past;
    this.text = [...(past === this.history.length ? this.draft : this.history[past])];
    this.at = this.text.length;
  }

  /** Completes the word before the cursor as far as all words that begin so are the same; if that is no
   * more than it is, these words are written. */
  complete() {
    const before = this.text.slice(0, this.at).join(""), word = /[^ ]*$/.exec(before)?.[0] || "";
    const found = this.completed(before.slice(0, before.length - word.length), word);
    if (!found.length) return "\x07";
    let common = found[0];
    while (!found.every(one => one.startsWith(common))) common = common.slice(0, -1);
    if (common !== word) {
      this.take(this.at - word.length, this.at, false);
      this.insert(common);
      return this.drawn();
    }
    const written = "\r\n" + rowsOf(found, this.width + this.prompt.length) + this.prompt;
    this.seen = [];
    this.seenAt = 0;
    return written + this.drawn();
  }

  /** What makes the terminal show the line as it is now. */
  drawn() {
    const half = Math.max(this.width >> 1, 1), old = this.seen;
    if (this.at < this.first) this.first = Math.max(this.at - half, 0);
    if (this.at - this.first > this.width) this.first = this.at - half;
    if (this.text.length <= this.width) this.first = 0;
    const now = this.text.slice(this.first, this.first + this.width), at = this.at - this.first;
    let same = 0;
    while (same < now.length && now[same] === old[same]) same += 1;
    const isSame = same === now.length && same === old.length, from = isSame ? at : same;
    const move = from < this.seenAt ? "\b".repeat(this.seenAt - from) : now.slice(this.seenAt, from).join("");
    const blanks = Math.max(old.length - now.length, 0);
    this.seen = now;
    this.seenAt = at;
    return isSame ? move : move + now.slice(from).join("") + " ".repeat(blanks) + "\b".repeat(now.length + blanks - at);
  }
}
