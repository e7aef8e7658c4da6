// Why lines are refused: tools/lib/causes.js. Of each session the last line is refused.

import assert from "node:assert";
import {test} from "node:test";

import {encoded, foreign} from "../lib/bytes.js";
import {WRITTEN, causeOf, starts} from "../lib/causes.js";
import {Known} from "../lib/readings.js";
import {STATE_LINES, linesOf} from "../lib/session.js";
import {LOOP, textOf, toldOfSession} from "./shared.js";

const LOADED = "LOAD U J -\n100/ 1\nGO 100\n", INSIDE = "not allowed here: the block of ";
const LOAD_CUT = "the input ends inside the block of LOAD, which is open since line 1 (octal 1): its GO is missing";
const FILE_CUT = "the input ends inside the block of FILE, which is open since line 1 (octal 1): its EOF is missing";

// A session, the reason for which the program refuses its last line, the column, and the cause.
const CASES = [
  ["CLOCK 18\n", "SYNTAX", 8, "the digit 8: numbers are octal, and have the digits 0 to 7"],
  ["CLOCK\t1\n", "SYNTAX", 6, "a tab: words are parted by spaces alone, in comments too; expand FILE > NEW converts them"],
  ["END\r\n", "SYNTAX", 4, "a carriage return: lines end with LF alone, and not with CR and LF; tr -d '\\r' < FILE > NEW converts it"],
  ["\ufeffEND\n", "SYNTAX", 1, "a byte order mark is before the text: tail -c +4 FILE > NEW takes it away"],
  ["; \u2013\n", "SYNTAX", 3, "a byte that is no ASCII: it begins the character \u2013"],
  ["END\0\n", "SYNTAX", 4, "a byte that is no printing character of ASCII, 0 in octal"],
  ["clock 1\n", "SYNTAX", 1, "lower case: write CLOCK"],
  ["CLOK 1\n", "SYNTAX", 1, "no line begins with CLOK; is it CLOCK?"],
  ["XYZZY\n", "SYNTAX", 1, "no line begins with XYZZY"],
  ["#1\n", "SYNTAX", 1, "no line begins with #1; a comment begins with ;"],
  ["1 2\n", "SYNTAX", 1, "no line begins with 1; words are loaded by a line as 100/ 1"],
  ["100 / 1\n", "SYNTAX", 1, "an address and its / are one word, with a space after it: 100/ 1"],
  ["CLOCK 1 ; one\n", "SYNTAX", 9, "a comment after a line: a comment needs a line of its own"],
  ["CLOCK\n", "SYNTAX", 6, "too few words: it is written CLOCK n"],
  ["CLOCK 1 2\n", "SYNTAX", 9, "too many words: it is written CLOCK n"],
  ["CLOCK 1234567012345\n", "SYNTAX", 19, "a number of 13 digits: it may have 12"],
  ["CLOCK -1\n", "SYNTAX", 7, "'-1' is no number: numbers are 1 to 12 octal digits"],
  ["DIR SEVENTH\n", "SYNTAX", 11, "a name of 7 letters: it may have 6"],
  ["DIR d\n", "SYNTAX", 5, "lower case in the name 'd': write D"],
  ["DIR ~\n", "SYNTAX", 5, "'~' may not occur in a name"],
  ["GO 100\n", "SYNTAX", 1, "not allowed here: GO closes the block of LOAD, and none is open"],
  ["100/ 1\n", "SYNTAX", 1, "not allowed here: a/ lines are allowed only after a LOAD line, up to its GO"],
  ["CLOCK 1\nVERSION 2\n", "SYNTAX", 1, "not allowed here: VERSION is allowed in line 1 alone"],
  ["RUN 1 1\n", "SYNTAX", 1, "RUN lines are of version 2 of the session text: line 1 has to be VERSION 2"],
  ["LOAD U J -\nTICK 0 1\n", "SYNTAX", 1, INSIDE + "LOAD is open since line 1 (octal 1), and up to its GO only a/ lines are allowed in it"],
  ["VERSION 2\nLOAD U J -\nTICK 0 1\n", "SYNTAX", 1,
   INSIDE + "LOAD is open since line 2 (octal 2), and up to its GO only a/, RO and SYM lines are allowed in it"],
  ["FILE D A B\nTICK 0 1\n", "SYNTAX", 1, INSIDE + "FILE is open since line 1 (octal 1), and up to its EOF only / lines are allowed in it"],
  ["LOAD U J -\n100/" + " 1".repeat(17) + "\n", "SYNTAX", 38, "17 words: a line has 16 at most; begin another line"],
  ["LOAD U J -\n100/\n", "SYNTAX", 5, "too few words: it is written a/ and 1 to 16 words"],
  ["VERSION 2\nLOAD U J -\n100/ 1\nSYM START 100\nGO 100\nEXAM 0 START 1\n", "SYNTAX", 8,
   "the symbol START: the program takes numbers alone, so write 100 (a tail of tools/job may have symbols)"],
  ["LOAD U J -\n", "CUT", null, LOAD_CUT],
  ["FILE D A B\n", "CUT", null, FILE_CUT],
  ["TICK 0 1001\n", "RANGE", 8, "the count of ticks is 1 to 1000 here (1 to 512 in decimal), and this is 1001 (513)"],
  ["TICK 100 1\n", "RANGE", 6, "a slot is 0 to 77 here (0 to 63 in decimal), and this is 100 (64)"],
  ["VERSION 2\nTICK 140 1\n", "RANGE", 6, "a slot is 0 to 137 here (0 to 95 in decimal), and this is 140 (96)"],
  ["TYPE 0 200\n", "RANGE", 8, "a byte is 0 to 177 here (0 to 127 in decimal), and this is 200 (128)"],
  [LOADED + "EXAM 0 777777 2\n", "RANGE", 8, "2 words from 777777 on go past the last address, 777777"],
  ["LOAD U J -\n777777/ 1 2\n", "RANGE", 1, "2 words from 777777 on go past the last address, 777777"],
  ["CLOCK 177777777777\nCLOCK 1\n", "RANGE", 7, "the clock is at 177777777777, and has to stay below 200000000000"],
  ["TYPE 10 101\n", "NOCONS", 6, "consoles are 0 to 7"],
  ["LOAD U J 10\n", "NOCONS", 10, "consoles are 0 to 7"],
  ["STATE 0\n", "NOJOB", 7, "there is no job in slot 0 now; LOAD has made none"],
  [LOADED + "STATE 1\n", "NOJOB", 7, "there is no job in slot 1 now; LOAD has made jobs in slot 0"],
  [LOADED + "DEPOSIT 0 2000 4\n", "NOPAGE", 11, "slot 0 has not every page of these words: page 1 (addresses 2000 to 3777)"],
  ["VERSION 2\nLOAD U J -\nRO 1\n", "NOPAGE", 4, "page 1 is not there: load a word into it first"],
  ["VERSION 2\nLOAD U J -\n2000/ 1\nRO 1\nGO 2000\nDEPOSIT 0 2000 1\n", "READONLY", 11, "the page of this word is read only"],
  ["VERSION 2\nLOAD U J -\n2000/ 1\nRO 1\n2001/ 2\n", "READONLY", 1, "a word of this line lies on a page that is read only"],
  ["SHOW D A B\n", "NOFILE", 6, "no file has these names: directory, name 1, name 2"],
  ["FILE D A B\n/ 1\nEOF\nFILE D A B\n", "EXISTS", 6, "there is already a file with these names"],
  [LOADED.repeat(65), "FULL", 1, "there are 64 jobs, the most that there can be in version 1"],
  ["VERSION 2\n" + LOADED.repeat(97), "FULL", 1, "there are 96 jobs, the most that there can be in version 2"],
  [";" + "x".repeat(300) + "\n", "LONG", 256, "the line has 301 bytes, and may have 255"],
];

for (const [session, reason, column, cause] of CASES) {
  test(reason + ": " + cause, () => {
    const lines = toldOfSession(encoded(session)), {refused, line} = lines[lines.length - 1];
    assert.deepStrictEqual(refused, {reason, octal: line.toString(8), column, cause});
  });
}

// A session, the reason with which its last line may be refused, the column, and words of the cause. The transcript is made to fit.
const REFUSED = [
  ["CLOCK 1\r", "SYNTAX", 8, "a carriage return"],
  ["CLOCK\t1", "SYNTAX", 6, "a tab"],
  ["\u00ef\u00bb\u00bfEND", "SYNTAX", 1, "a byte order mark"],
  ["; \u00e2\u0080\u0093", "SYNTAX", 3, "it begins the character \u2013"],
  ["; \u00ff", "SYNTAX", 3, "a byte that is no printing character of ASCII, 377 in octal"],
  ["; \u0001", "SYNTAX", 3, "no printing character of ASCII, 1 in octal"],
  ["clock 1", "SYNTAX", 1, "lower case: write CLOCK"],
  ["CLOK 1", "SYNTAX", 1, "no line begins with CLOK; is it CLOCK?"],
  ["QQQQQQ", "SYNTAX", 1, "no line begins with QQQQQQ"],
  ["# note", "SYNTAX", 1, "no line begins with #; a comment begins with ;"],
  ["100 1", "SYNTAX", 1, "no line begins with 100; words are loaded by a line as 100/ 1"],
  ["100/1", "SYNTAX", 1, "an address and its / are one word"],
  ["100 /1", "SYNTAX", 1, "an address and its / are one word"],
  ["CLOCK 1 ; one", "SYNTAX", 9, "a comment after a line"],
  ["X 1 ; one", "SYNTAX", 5, "a comment after a line"],
  ["CLOCK", "SYNTAX", 6, "too few words: it is written CLOCK n"],
  ["CLOCK 1 2", "SYNTAX", 9, "too many words: it is written CLOCK n"],
  ["CLOCK 18", "SYNTAX", 8, "the digit 8"],
  ["CLOCK A", "SYNTAX", 7, "'A' is no number"],
  ["CLOCK " + "1".repeat(13), "SYNTAX", 19, "a number of 13 digits"],
  ["DIR d", "SYNTAX", 5, "lower case in the name 'd': write D"],
  ["DIR A~", "SYNTAX", 6, "'~' may not occur in a name"],
  ["DIR SEVENTH", "SYNTAX", 11, "a name of 7 letters"],
  ["TYPE 0", "SYNTAX", 7, "too few words: it is written TYPE c and 1 to 32 bytes"],
  ["TYPE 0" + " 1".repeat(33), "SYNTAX", 72, "33 words: a line has 32 at most"],
  ["RUN 1 1", "SYNTAX", 1, "RUN lines are of version 2 of the session text"],
  ["CLOCK 1\nVERSION 2", "SYNTAX", 1, "VERSION is allowed in line 1 alone"],
  ["GO 100", "SYNTAX", 1, "GO closes the block of LOAD, and none is open"],
  ["/ 1", "SYNTAX", 1, "/ lines are allowed only after a FILE line, up to its EOF"],
  ["LOAD U J 0\nTICK 0 1", "SYNTAX", 1, "up to its GO only a/ lines are allowed in it"],
  ["VERSION 2\nLOAD U J 0\nEOF", "SYNTAX", 1, "up to its GO only a/, RO and SYM lines are allowed in it"],
  ["LOAD U J 0\n/ 1", "SYNTAX", 1, "the block of LOAD is open since line 1 (octal 1)"],
  ["LOAD U J 0\n8/ 1", "SYNTAX", 1, "the digit 8"],
  ["LOAD U J 0\n100/" + " 1".repeat(17), "SYNTAX", 38, "17 words: a line has 16 at most"],
  ["VERSION 2\nLOAD U J 0\n200/ 0\nSYM X 200\nGO 200\nEXAM 0 X 1", "SYNTAX", 8, "the symbol X: the program takes numbers alone, so write 200"],
  ["LOAD U J -\nGO 0\nSTOP -", "SYNTAX", 6, "'-' is no number"],
  ["; " + "x".repeat(254), "LONG", 256, "the line has 256 bytes, and may have 255"],
  ["TICK 0 1001", "RANGE", 8, "the count of ticks is 1 to 1000 here (1 to 512 in decimal), and this is 1001 (513)"],
  ["TICK 100 1", "RANGE", 6, "a slot is 0 to 77 here"],
  ["VERSION 2\nTICK 140 1", "RANGE", 6, "a slot is 0 to 137 here (0 to 95 in decimal), and this is 140 (96)"],
  ["VERSION 3", "RANGE", 9, "the version is 1 to 2 here"],
  ["VERSION 2\nRUN 1 101", "RANGE", 7, "the count of ticks of a turn is 1 to 100 here"],
  ["TYPE 0 177 200", "RANGE", 12, "a byte is 0 to 177 here"],
  [LOOP + "EXAM 0 777777 2", "RANGE", 8, "2 words from 777777 on go past the last address"],
  ["LOAD U J 0\n777777/ 1 2", "RANGE", 1, "2 words from 777777 on go past the last address"],
  ["CLOCK 5\nCLOCK 200000000000", "RANGE", 7, "the clock is at 5, and has to stay below 200000000000"],
  ["LOAD U J 10", "NOCONS", 10, "consoles are 0 to 7"],
  ["TYPE 10 101", "NOCONS", 6, "consoles are 0 to 7"],
  ["STATE 0", "NOJOB", 7, "there is no job in slot 0 now; LOAD has made none"],
  [LOOP + "STATE 7", "NOJOB", 7, "LOAD has made jobs in slot 0"],
  [LOOP + "EXAM 0 1777 2", "NOPAGE", 8, "page 0 (addresses 0 to 1777) and 1 (addresses 2000 to 3777)"],
  [LOOP + "DEPOSIT 0 2000 1", "NOPAGE", 11, "page 1 (addresses 2000 to 3777)"],
  ["VERSION 2\nLOAD U J 0\nRO 1", "NOPAGE", 4, "page 1 is not there: load a word into it first"],
  ["VERSION 2\nLOAD U J 0\n100/ 1\nRO 0\n100/ 2", "READONLY", 1, "a word of this line lies on a page that is read only"],
  [LOOP + "DEPOSIT 0 100 1", "READONLY", 11, "the page of this word is read only"],
  ["SHOW D A B", "NOFILE", 6, "no file has these names"],
  ["FILE D A B", "EXISTS", 6, "there is already a file with these names"],
  ["LOAD U J 0", "FULL", 1, "there are 64 jobs, the most that there can be in version 1"],
  ["VERSION 2\nLOAD U J 0", "FULL", 1, "there are 96 jobs, the most that there can be in version 2"],
  ["FILE D A B", "FULL", 1, "there are 256 files"],
  ["FILE D A B\n/ 1", "FULL", 1, "all 2048 blocks of files are in use"],
  ["VERSION 2\nLOAD U J 0\nSYM X 1", "FULL", 1, "the job has 512 symbols"],
  ["DIR D", "FULL", 1, "there is no room"],
  ["DIR D", "OTHER", 0, "docs/SESSION.md, \"Refusals\", has the reasons"]];

// What is said of a session whose last line is refused.
function refusedLast(session, reason) {
  const lines = linesOf(session), transcript = lines.slice(0, -2).map(({kind}) => kind === "LOAD" ? "J 0\n" : "").join("");
  return toldOfSession(session, transcript + "? " + (lines.length - 1).toString(8) + " " + reason + "\n").pop().refused;
}

for (const [session, reason, column, words] of REFUSED) {
  test(reason + " of " + JSON.stringify(session.slice(-60)), () => {
    const found = refusedLast(session, reason);
    assert.ok(found.cause.includes(words), found.cause);
    assert.deepStrictEqual([found.column || 0, found.reason], [column, reason]);
  });
}

test("A block that is cut", () => {
  const told = toldOfSession("FILE D A B\n", "? 2 CUT\n");
  assert.deepStrictEqual(told.map(({line}) => line), [1, 2]);
  assert.deepStrictEqual(told[1].refused, {reason: "CUT", octal: "2", column: null, cause: FILE_CUT});
});

test("The manual has the same forms", () => {
  const table = textOf("docs/SESSION.md").split("| Line | Numbers | Output |\n|---|---|---|\n")[1].split("\n\n")[0];
  const rows = table.replaceAll("`", "").split("\n").map(row => row.split(" | "));
  const forms = Object.keys(WRITTEN).filter(kind => !STATE_LINES.includes(kind)).map(kind => WRITTEN[kind]);
  assert.deepStrictEqual(rows.filter(([form]) => !forms.includes(form.slice(2))), []);
  assert.strictEqual(rows.length, forms.length);
  assert.deepStrictEqual(rows.filter(row => row[1].includes("version 2")).map(([form]) => form.split(" ")[1]).sort(), ["LIST", "RO", "RUN", "SYM"]);
});

test("The columns of words", () => {
  assert.deepStrictEqual([starts(linesOf("  TICK  0 0")[0]), starts(linesOf("")[0])], [[3, 9, 11], []]);
});

test("A line that has the form of one", () => {
  const exchange = {line: linesOf("TICK 0 1")[0], answer: [], reason: "SYNTAX", at: 0};
  assert.deepStrictEqual(causeOf(exchange, new Known()), {text: "no line of docs/SESSION.md has this form", column: 0});
});

test("Bytes that are no ASCII", () => {
  assert.strictEqual(foreign(encoded("\u20ac5")), "a byte that is no ASCII: it begins the character \u20ac");
  assert.strictEqual(foreign("\xe2"), "a byte that is no printing character of ASCII, 342 in octal");
});

test("A line that is not refused has no cause", () => {
  assert.ok(toldOfSession(LOADED + "TICK 0 1\n").every(line => line.refused === null));
});
