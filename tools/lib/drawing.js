// Shared by the page and the commands: parts of a picture as SVG: texts, lines, the signs of marks, and what they mean.

/** The style of a picture. */
export const STYLE = `text { font-family: "DejaVu Sans", Verdana, sans-serif; font-size: 12px; fill: #1a1a1a }
.mono { font-family: "DejaVu Sans Mono", Consolas, monospace; font-size: 11px }
.small { font-size: 11px; fill: #555 }
.bold { font-weight: bold }
.title { font-size: 14px; font-weight: bold }
.white { fill: #fff }
.middle { text-anchor: middle }`;

const PATTERNS = `<pattern id="waits" width="6" height="6" patternUnits="userSpaceOnUse">
<rect width="6" height="6" fill="#fbdc9f"/><path d="M-1 7L7 -1" stroke="#e3a23a" stroke-width="1.5"/></pattern>`;

/** Of each letter the colours of its bar and of the bar's edge, and what it means.
 * @type {Record<string, [string, string, string]>} */
export const LETTERS = {
  "*": ["#174f86", "#174f86", "a step of the machine, as the program sees it"],
  ".": ["#b9d9f2", "#5f9cc9", "the monitor's work inside a call"],
  w: ["url(#waits)", "#c98a22", "the call waits"],
  "-": ["#ffffff", "#8a8a8a", "off: the job is stopped, or no job is in the slot"]};

/** What each kind of mark means.
 * @type {Record<string, string>} */
export const KINDS = {
  made: "LOAD makes the job",
  seen: "seen first: a call made the job, some time before",
  gone: "gone by now: removed, some time before",
  disturb: "a line that brings its job to user mode first (it disturbs the job)",
  look: "PEEK: state in the call, and steps to user mode (it disturbs nothing)",
  other: "a line on a console, the clock or files (CLOCK disturbs jobs whose alarm is due)",
  refused: "the line is refused, and the session is over"};

/** Notes below a picture. */
export const NOTES = {
  always: ["Numbers are octal. Those below a row say how many ticks came before, those in bars how many ticks the bar has.",
           "A transcript has no line for a job that OPEN makes or that LOGOUT or UCLOSE removes, nor for a job that another job's call " +
           "disturbs: what cannot be seen there is not drawn, and a lane may be of two jobs, one after the other."],
  ended: "Dots lead from where a job was seen last to where it is seen to be gone.",
  broken: "A bar with two white cuts is drawn shorter than its ticks.",
  many: "Of many equal lines in a row, one mark says how many there are, in decimal."};

/** A coordinate, with at most two decimals; of two that are equally near, the even one.
 * @param {number} x */
export function coordinate(x) {
  const isHalf = Number.isInteger(x * 8) && !Number.isInteger(x * 4), cents = Math.floor(x * 100);
  const said = isHalf ? ((cents + cents % 2) / 100).toFixed(2) : x.toFixed(2);
  return said.replace(/\.?0+$/, "");
}

/** Words as XML has them; what cannot be printed is a question mark.
 * @param {string} words */
export function xml(words) {
  return words.replace(/[^\x20-\x7e\xa1-\xac\xae-\u{10ffff}]/gu, "?").replace(/&/g, "&amp;").replace(/</g, "&lt;").replace(/>/g, "&gt;");
}

/** A text; turned, it goes upwards from its place.
 * @param {number} x
 * @param {number} y
 * @param {string} words */
export function svgText(x, y, words, style = "", isTurned = false) {
  const place = isTurned ? ' transform="rotate(-90 ' + coordinate(x) + " " + coordinate(y) + ')"' : "";
  return '<text x="' + coordinate(x) + '" y="' + coordinate(y) + '"' + (style ? ' class="' + style + '"' : "") + place + ">" + xml(words) +
    "</text>";
}

/** A line.
 * @param {number} x1
 * @param {number} y1
 * @param {number} x2
 * @param {number} y2
 * @param {string} colour */
export function svgLine(x1, y1, x2, y2, colour, more = "") {
  return '<path d="M' + coordinate(x1) + " " + coordinate(y1) + "L" + coordinate(x2) + " " + coordinate(y2) + '" stroke="' + colour +
    '" fill="none"' + more + "/>";
}

/** The sign of a kind of mark, in the 10 px above y.
 * @param {string} kind
 * @param {number} x
 * @param {number} y */
export function markSign(kind, x, y) {
  const at = (/** @type {number} */ dx, /** @type {number} */ dy) => coordinate(x + dx) + " " + coordinate(y + dy);
  switch (kind) {
    case "disturb": return '<path d="M' + at(-5, -9) + 'h10l-5 9z" fill="#c2410c"/>';
    case "look": return '<circle cx="' + coordinate(x) + '" cy="' + coordinate(y - 5) +
      '" r="4" fill="#fff" stroke="#1a1a1a" stroke-width="1.5"/>';
    case "other": return '<path d="M' + at(-3.5, -8) + 'h7v7h-7z" fill="#555"/>';
    case "made": return '<path d="M' + at(-3, -9) + 'l8 4.5l-8 4.5z" fill="#1a1a1a"/>';
    case "seen": return '<path d="M' + at(-3, -9) + 'l8 4.5l-8 4.5z" fill="#fff" stroke="#1a1a1a"/>';
    default: return '<path d="M' + at(-4, -9) + 'l8 8m0 -8l-8 8" stroke="' + (kind === "refused" ? "#c2410c" : "#1a1a1a") +
      '" stroke-width="2" fill="none"/>';
  }
}

/** The sign of a letter or of a kind of mark in a legend, 22 by 14 px at a place.
 * @param {string} what
 * @param {number} x
 * @param {number} y */
export function legendSign(what, x, y) {
  if (!LETTERS[what]) return [markSign(what, x + 11, y)];
  const [fill, edge] = LETTERS[what];
  return ['<rect x="' + coordinate(x) + '" y="' + coordinate(y - 11) + '" width="22" height="14" fill="' + fill + '" stroke="' + edge + '"/>',
          svgText(x + 11, y, what, what === "*" ? "mono middle white" : "mono middle")];
}

/** Words in lines of at most so many characters.
 * @param {string} words
 * @param {number} most */
export function wrapped(words, most) {
  /** @type {string[]} */
  const lines = [];
  for (const word of words.split(" ")) {
    const last = lines.length - 1;
    if (lines.length && lines[last].length + 1 + word.length <= most) lines[last] += " " + word;
    else lines.push(word);
  }
  return lines;
}

/** The parts of a picture as an SVG.
 * @param {string[]} parts
 * @param {string} name
 * @param {number} width
 * @param {number} height
 * @param {number} enlarged */
export function svgOf(parts, name, width, height, enlarged) {
  return ['<svg xmlns="http://www.w3.org/2000/svg" width="' + coordinate(width * enlarged) + '" height="' + coordinate(height * enlarged) +
          '" viewBox="0 0 ' + coordinate(width) + " " + coordinate(height) + '">', "<title>" + xml(name) + "</title>",
          "<style>" + STYLE + "</style>", "<defs>" + PATTERNS + "</defs>", '<rect width="100%" height="100%" fill="#fff"/>',
          ...parts, "</svg>"].join("\n") + "\n";
}
