// Shared by the page and the commands: what a terminal shows that gets some bytes, as far as
// tools/terminal needs it. Bytes are characters of a text.

const SEQUENCE = /\x1b(?:\[([?]?[0-9;]*)([A-Za-z@])|[()][AB0]|([78=>M]))/y;
const LONGEST = 12;                      // characters of a command

/** The screen of a terminal. */
export class Glass {
  /** @param {number} columns
   * @param {number} rows */
  constructor(columns, rows) {
    this.columns = columns;
    this.rows = rows;
    this.cells = Array.from({length: rows}, () => this.row(" "));
    this.reverse = Array.from({length: rows}, () => this.row(false));
    this.x = this.y = this.top = 0;
    this.bottom = rows - 1;
    this.saved = [0, 0];
    this.isReverse = false;
    this.rest = "";                      // of a command that has not come whole
  }

  /** A row that has the same everywhere.
   * @template T
   * @param {T} blank
   * @returns {T[]} */
  row(blank) { return new Array(this.columns).fill(blank); }

  /** The text of each row, without the blanks at its end. */
  lines() { return this.cells.map(row => row.join("").trimEnd()); }

  /** The terminal gets bytes.
   * @param {string} data */
  feed(data) {
    const all = this.rest + data;
    let at = 0;
    this.rest = "";
    while (at < all.length) {
      if (all[at] !== "\x1b") {
        this.byte(all.charCodeAt(at));
        at += 1;
        continue;
      }
      SEQUENCE.lastIndex = at;
      const found = SEQUENCE.exec(all);
      if (found) {
        this.command(found[1] || "", found[2] || found[3] || "");
        at = SEQUENCE.lastIndex;
      } else if (all.length - at < LONGEST) {
        this.rest = all.slice(at);
        return;
      } else at += 1;
    }
  }

  /** A byte that is no part of a command.
   * @param {number} code */
  byte(code) {
    if (code === 0o15) this.x = 0;
    else if (code === 0o12) this.down();
    else if (code === 0o10) this.x = Math.max(this.x - 1, 0);
    else if (code === 0o11) this.x = Math.min(Math.floor(this.x / 8) * 8 + 8, this.columns - 1);
    else if (code >= 32) {
      if (this.x === this.columns) {
        this.x = 0;
        this.down();
      }
      this.cells[this.y][this.x] = String.fromCharCode(code);
      this.reverse[this.y][this.x] = this.isReverse;
      this.x += 1;
    }
  }

  /** One row down; at the last row of the region its rows move up. */
  down() {
    if (this.y !== this.bottom) {
      this.y = Math.min(this.y + 1, this.rows - 1);
      return;
    }
    this.cells.splice(this.top, 1);
    this.cells.splice(this.bottom, 0, this.row(" "));
    this.reverse.splice(this.top, 1);
    this.reverse.splice(this.bottom, 0, this.row(false));
  }

  /** A command of the terminal.
   * @param {string} words
   * @param {string} letter */
  command(words, letter) {
    const numbers = words.replace(/^[?]+/, "").split(";").map(Number), first = Math.max(numbers[0], 1);
    if (letter === "H") [this.y, this.x] = [first - 1, Math.max(numbers[1] || 1, 1) - 1];
    else if (letter === "r") {
      [this.top, this.bottom] = [first - 1, (numbers[1] || this.rows) - 1];
      this.x = this.y = 0;
    } else if (letter === "A") this.y = Math.max(this.y - first, 0);
    else if (letter === "C") this.x = Math.min(this.x + first, this.columns - 1);
    else if (letter === "D") this.x = Math.max(this.x - first, 0);
    else if (letter === "K") {
      this.cells[this.y].fill(" ", this.x);
      this.reverse[this.y].fill(false, this.x);
    } else if (letter === "m") this.isReverse = numbers[numbers.length - 1] === 7;
    else if (letter === "7") this.saved = [this.x, this.y];
    else if (letter === "8") [this.x, this.y] = this.saved;
  }
}
