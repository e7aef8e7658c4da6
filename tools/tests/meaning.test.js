// What lines and words mean: tools/lib/meaning.js, tools/lib/readings.js; the lines of a session: tools/lib/session.js; and how they are shown.

import assert from "node:assert";
import {test} from "node:test";

import {frameSaid, meaningOf} from "../lib/meaning.js";
import {Known, callText, errorWords, reading, small} from "../lib/readings.js";
import {atLine, kindOf, linesOf, wordsIn} from "../lib/session.js";
import {inWords, numberOf, refusal, shown} from "../lib/told.js";
import {peekOf, slotOf, stateOf, wordsOf} from "../lib/transcript.js";
import {Wrong, asSixbit, countOf} from "../lib/words.js";
import {LOOP, textOf, told, toldOfSession} from "./shared.js";

const LOADED = "LOAD U J -\n100/ 254000000100\nGO 100\n", IN_USER = "the job is found in user mode";

// What the last line of a session means.
function meansLast(session) { return toldOfSession(session).pop().means; }

const LINES = [
  ["VERSION 1\n", ["what holds without this line too"]],
  ["VERSION 2\n", ["96 jobs, read-only pages and symbols"]],
  ["; a comment\n", []],
  ["\n", []],
  ["END\n", []],
  ["CLOCK 17\nCLOCK 36\n", ["the clock reaches 55 thirtieths of a second, 1.5 seconds in decimal"]],
  [LOADED, ["the job in slot 0 starts at 100"]],
  [LOADED + "TICK 0 1\n", ["slot 0: 1 step"]],
  [LOADED + "TICK 0 10\n", ["slot 0: 8 (octal 10) steps"]],
  [LOADED + "TICK 1 2\n", ["slot 1: 2 ticks with no job that runs"]],
  ["VERSION 2\nRUN 2 10\n", ["no job runs: nobody has a turn"]],
  ["VERSION 2\n" + LOADED + "RUN 7 1\n", [...Array(5).fill("slot 0: 1 step"), "and 2 turns more"]],
  ["TYPE 0 141 15\n", ['console 0 gets "a<15>"']],
  ["TYPE 0" + " 141".repeat(30) + "\nTYPE 0" + " 141".repeat(30) + "\nTYPE 0" + " 141".repeat(6) + "\n",
   ['console 0 gets "aaaaaa"; 2 bytes are dropped, because it keeps 64 at most']],
  ["DRAIN 0 10\n", ["console 0 had put out nothing more"]],
  [LOADED + "EXAM 0 0 1\n", [IN_USER, "000000 holds 000000000000"]],
  [LOADED + "DEPOSIT 0 100 101\n", ["the word at 100 of slot 0 becomes 101 (65 in decimal, or the byte 'A'); the job is found in user mode"]],
  [LOADED + "STATE 0\n", ["job U J, no superior, no console; found in user mode", "it runs, PC 100, no flag on"]],
  [LOADED + "INT 0 400000 3\n", ["slot 0 gets the bits 400000 in word 1 of its pending bits, 3 in word 2; found in user mode"]],
  [LOADED + "STOP 0\n", ["the job in slot 0 is stopped, in user mode"]],
  [LOADED + "CONT 0\n", ["the job in slot 0 may run, and its fatal pending bits are cleared; found in user mode"]],
  [LOADED + "PEEK 0\n", ["in user mode, in no call", "nothing is disturbed"]],
  ["VERSION 2\nLOAD U J -\n100/ 254000000100\nSYM START 100\nGO 100\nLIST 0 100 1\n", [IN_USER, "000100 (START): JRST START"]],
  ["VERSION 2\nLOAD U J -\n100/ 254000000100 0\nSYM START 100\nGO 100\nEXAM 0 101 1\n", [IN_USER, "000101 (START+1) holds 000000000000"]],
  ["FILE D A B\n/ 1 2\nEOF\nDIR D\n", ["1 file in directory D", "A B, 2 words"]],
  ["DIR NONE\n", ["0 files in directory NONE"]],
  ["FILE D A B\n/ 406050000000 0\nEOF\nSHOW D A B\n", ["the file A B in directory D, 2 words", 'word 0, 406050000000: text "AB@"']],
  ["FILE D A B\nEOF\nSHOW D A B\n", ["the file A B in directory D, 0 words"]],
];

for (const [session, means] of LINES) {
  test("The last line of " + JSON.stringify(session.slice(0, 80)), () => assert.deepStrictEqual(meansLast(session), means));
}

const STATE = "S 0 " + asSixbit("USER") + " " + asSixbit("JOB") + " - 0 RUN 410000000105 000000000201 000000000000 000000000100 000000000000 " +
  "000000000000 000000000007";

// A session of version 2, the answer to its last line, and what is said of that line; null: anything.
const SAID = [
  ["VERSION 2", "", ["96 jobs, read-only pages and symbols"]],
  ["VERSION 1", "", ["what holds without this line too"]],
  ["LOAD U J -", "J 137", ["a job U J is made in slot 137, without a console"]],
  ["LOAD U J 7", "J 0", ["a job U J is made in slot 0, with console 7"]],
  ["LOAD U J 0\n100/ 43000000120 1 045700000000", "", ["100: .CALL 120; 102: .BREAK 16,"]],
  ["LOAD U J 0\n100/ 1 2", "", []],
  ["VERSION 2\nLOAD U J 0\n2000/ 0\nRO 1", "", ["page 1 (addresses 2000 to 3777) of slot 0 becomes read only"]],
  ["VERSION 2\nLOAD U J 0\nSYM X 000200", "", ["STATE of slot 0 may name 200 for X"]],
  ["VERSION 2\nLOAD U J 0\nSYM X 200\nGO 201", "", ["the job in slot 0 starts at 201 (X+1)"]],
  ["FILE D A B", "", ["a file A B in directory D"]],
  [LOOP + "TICK 0 12", "T 0 2* 1. 7w", ["slot 0: 2 steps, then 1 tick of the monitor's work, then 7 ticks of waiting"]],
  [LOOP + "TICK 0 6", "T 0 1* 1. 1* 1. 1* 1.", ["slot 0, 6 ticks in all: 3 steps, 3 ticks of the monitor's work"]],
  ["VERSION 2\nRUN 3 1", "", ["no job runs: nobody has a turn"]],
  ["VERSION 2\n" + LOOP + "RUN 3 2", "T 0 2*\nT 0 2*", ["slot 0: 2 steps", "slot 0: 2 steps", "it ends early: no job runs then"]],
  ["VERSION 2\n" + LOOP + "RUN 7 1", "T 0 1*\nT 0 1*\nT 0 1*\nT 0 1*\nT 0 1*\nT 0 1*\nT 0 1*",
   ["slot 0: 1 step", "slot 0: 1 step", "slot 0: 1 step", "slot 0: 1 step", "slot 0: 1 step", "and 2 turns more"]],
  ["TYPE 0 101 15", "Y 0 0", ['console 0 gets "A<15>"']],
  ["TYPE 0 101", "Y 0 1", ['console 0 gets "A"; 1 byte is dropped, because it keeps 64 at most']],
  ["DRAIN 3 2", "D 3 101 102", ['console 3 had put out "AB"']],
  ["DRAIN 3 2", "D 3", ["console 3 had put out nothing more"]],
  ["CLOCK 36\nCLOCK 36", "", ["the clock reaches 74 thirtieths of a second, 2.0 seconds in decimal"]],
  [LOOP + "INT 0 3 0", "", ["slot 0 gets the bits BRK ILO in word 1 of its pending bits, 0 in word 2; found in user mode"]],
  [LOOP + "INT 0 0 17", "", ["slot 0 gets the bits 0 in word 1 of its pending bits, 17 in word 2; found in user mode"]],
  ["VERSION 2\nLOAD U J 0\n100/ 0\nSYM X 77\nGO 100\nEXAM 0 100 2", "E 0 000100 000000000015 777777777776",
   ["the job is found in user mode", "000100 (X+1) holds 000000000015: 13 in decimal", "000101 (X+2) holds 777777777776"]],
  ["VERSION 2\nLOAD U J 0\n100/ 0\nSYM X 100\nGO 100\nLIST 0 100 1", "L 0 000100 JRST 100", ["the job is found in user mode", "000100 (X): JRST X"]],
  ["VERSION 2\n" + LOOP + "LIST 0 100 1", "L 0 000100 JRST 100", ["the job is found in user mode"]],
  [LOOP + "STATE 0", STATE,
   ["job USER JOB, no superior, console 0; found in user mode", "it runs, PC 105, flags: overflow", "pending: BRK, a .BREAK; INF, an inferior was stopped or logged out (fatal)", "mask: PDL, a pushdown count ran out", "deferred, word 2: 7"]],
  [LOOP + "STATE 0", "S 0 656345620000 525742000000 2 - STOP 010000000105 000000000201 000000000000 000000000100 000000000000 000000000000 000000000007 700000000000 3",
   ["job USER JOB, its superior is slot 2, no console; found in user mode", "it is stopped, PC 105 (X+3), no flag on", null, null, null]],
  [LOOP + "DEPOSIT 0 100 645471000000", "", null],
  [LOOP + "DEPOSIT 0 100 7", "", ["the word at 100 of slot 0 becomes 7; the job is found in user mode"]],
  [LOOP + "STOP 0", "", ["the job in slot 0 is stopped, in user mode"]],
  [LOOP + "CONT 0", "", ["the job in slot 0 may run, and its fatal pending bits are cleared; found in user mode"]],
  [LOOP + "PEEK 0", "P 0 USER - 0 - - -", ["in user mode, in no call", "nothing is disturbed"]],
  ["DIR D", "R 440000000000 1\nF 410000000000 420000000000 2", ["1 file in directory D", "A B, 2 words"]],
  ["DIR D", "R 440000000000 0", ["0 files in directory D"]],
  ["SHOW D A B", "W 440000000000 410000000000 420000000000 2\n/ 414243000000 635157640000",
   ["the file A B in directory D, 2 words", "word 1, 635157640000: the name SIOT"]],
  ["; note", "", []],
  ["END", "", []]];

for (const [session, answer, said] of SAID) {
  test("The answer " + JSON.stringify(answer) + " of " + JSON.stringify(session.slice(-60)), () => {
    const before = linesOf(session).slice(0, -2).map(({kind}) => kind === "LOAD" ? "J 0\n" : "").join("");
    const last = toldOfSession(session, before + answer + (answer ? "\n" : "")).pop();
    assert.deepStrictEqual(last.answer, answer ? answer.split("\n") : []);
    if (said === null) return;
    assert.strictEqual(last.means.length, said.length, last.means.join("; "));
    last.means.forEach((one, at) => assert.strictEqual(one, said[at] === null ? one : said[at]));
  });
}

test("A line that is none", () => {
  assert.deepStrictEqual(meaningOf({line: linesOf("NONE")[0], answer: [], reason: "", at: 0}, new Known()), []);
});

for (const answer of ["S 0 1", "E 0 000100 8", "E 0"]) {
  test("The wrong answer " + answer, () => {
    const session = LOOP + (answer[0] === "S" ? "STATE 0" : "EXAM 0 100 1");
    assert.throws(() => toldOfSession(session, "J 0\n" + answer + "\n"), /^Error: the session, line 4 \(octal 4\): /);
  });
}

// A P line without its first two words, and what it says: each line, or null for any.
const SIOT = asSixbit("SIOT");
const FRAMES = [
  ["ENTERED - 1 - - -", ["the call was entered (ENTERED); 1 step to user mode"]],
  ["MOVING " + SIOT + " 3 440700001000 000000000005 000000000141", [
    "SIOT: a byte or word is taken and not stored yet (MOVING); 3 steps to user mode",
    "core has the pointer 440700001000 (before the first byte of 1000, bytes of 7 bits) and the count 5", "it holds the byte 'a' (141)"]],
  ["MOVING " + SIOT + " 3 004400001000 000000000005 000000000141", [null, null, "it holds the word 141"]],
  ["ENDING " + asSixbit("SLEEP") + " 2 000000000015 - -", [null, "core has the argument 000000000015 (13 in decimal)"]],
  ["WAITING " + asSixbit("SLEEP") + " 1 - - -", ["SLEEP: it waits until its time has come (WAITING); 1 step to user mode"]],
  ["NEW " + asSixbit("OPEN") + " 1 - - -", ["OPEN: ? (NEW); 1 step to user mode"]],
  ["WAITING 504156470000 1 - - -", ["HANG: it waits for ever (WAITING); 1 step to user mode"]],
  ["WAITING 515764000000 1 - - -", [".IOT: it waits for its console or its link (WAITING); 1 step to user mode"]],
  ["WAITING 545163644556 1 - - -", ["LISTEN: it waits until its console has no output (WAITING); 1 step to user mode"]]];

for (const [line, said] of FRAMES) {
  test("The frame " + line, () => {
    const found = frameSaid(("P 0 " + line).split(" "));
    assert.deepStrictEqual(found, said.map((one, at) => one === null ? found[at] : one));
  });
}

const WORDS = [
  ["000000000000", ""], ["000000000005", ""], ["000000000101", "65 in decimal, or the byte 'A'"], ["777777777777", ""], ["777776777777", ""],
  ["400000000000", "bit 0 alone"], ["777777000003", "what .IOT gives at the end of a file, an inferior or a link"],
  ["440700001000", "a byte pointer before the first byte of 1000, bytes of 7 bits"],
  ["350700001000", "a byte pointer at byte 1 of 1000, bytes of 7 bits"], ["010700001000", "a byte pointer at byte 5 of 1000, bytes of 7 bits"],
  ["004400001000", "a byte pointer at the word at 1000"], ["444400001000", "a byte pointer before the word at 1000"], ["442200001000", ""],
  ["635157640000", "the name SIOT"], ["646471000000", "the name TTY"], ["043000000140", ".CALL 140"], ["040040000200", ".IOT 1,200"],
  ["045700000000", ".BREAK 16,"], ["010000000100", "a PC word, PC 100"], ["406050000000", 'text "AB@"'], ["201040000005", ""],
  ["000000000007", ""],
  ["000000000010", "8 in decimal"],
  ["777777777760", "-16 in decimal"],
  ["000000777777", "262143 in decimal"],
  ["777777000001", "-262143 in decimal"],
  ["310000000105", "a PC word, PC 105, carry 0, carry 1"],
  ["040040000300", ".IOT 1,300"],
  ["043000000120", ".CALL 120"],
  ["043020000120", ".CALL 120 (indexed or indirect)"],
  ["443224072320", 'text "Hi th"'],
  ["123456701234", ""]];

for (const [word, said] of WORDS) test("The word " + word, () => assert.strictEqual(reading(word), said));

test("Small numbers and counts", () => {
  assert.deepStrictEqual([callText("043040000120"), small(7), small(-8), countOf(2, "byte", "bytes are")], ["", "", "-8 in decimal", "2 bytes are"]);
});

test("Words that get error numbers", () => {
  const block = [[0o120, "400000000000"], [0o121, "576045560000"], [0o122, "003000000220"], [0o123, "403000000221"], [0o124, "003000000222"]];
  const found = (...more) => [...errorWords(new Map([...block, ...more]))];
  assert.deepStrictEqual(found(), [0o220, 0o221]);
  assert.deepStrictEqual(found([0o123, "403000400221"]), [0o220, 0o400221]);
  assert.deepStrictEqual(found([0o120, "300000000000"]), []);
  assert.deepStrictEqual([...errorWords(new Map([[0o120, "400000000000"], [0o121, "000000000000"]]))], []);
});

// The words of a block from 120 on, and what is said at GO.
const OPEN = "the block at HANG, of HANG, has no last word: bit 0 of its last argument word has to be on";
const BLOCKS = [["400000000000 504156470000 405000000000", []], ["400000000000 504156470000", [OPEN]], ["0 504156470000", []],
                ["400000000000 504156470000 1000000001 1000000002 400000000000", []]];

for (const [words, said] of BLOCKS) {
  test("The block " + words, () => {
    const session = "VERSION 2\nLOAD U J -\n100/ 43000000120\n120/ " + words + "\nSYM HANG 120\nGO 100\n";
    assert.deepStrictEqual(meansLast(session).slice(1), said);
  });
}

test("A block that goes into the next one has no end", () => {
  const session = "LOAD U J -\n100/ 43000000120 43000000122\n120/ 400000000000 504156470000 400000000000 504156470000 405000000000\nGO 100\n";
  assert.deepStrictEqual(meansLast(session).slice(1), [OPEN.replace("HANG,", "120,").replace("at HANG", "at 120")]);
});

test("Loaded words are shown as the assembler writes them, but no words of blocks", () => {
  const told = toldOfSession("LOAD U J -\n100/ 201040000005 43000000120 202040000200 101 406050000000\n120/ 400000000000 504156470000 405000000000\nGO 100\n");
  assert.deepStrictEqual(told.slice(1, 3).map(({means}) => means), [["100: MOVEI 1,5; 101: .CALL 120; 102: MOVEM 1,200"], ["121: the name HANG"]]);
});

test("A job inside a call", () => {
  const lines = toldOfSession(textOf("sessions/tour-run.its")), moving = lines.find(({answer}) => answer.length && answer[0].startsWith("P 0 MOVING"));
  assert.deepStrictEqual(moving.means, [
    "SIOT: a byte or word is taken and not stored yet (MOVING); 4 steps to user mode",
    "core has the pointer 440700001000 (before the first byte of 1000, bytes of 7 bits) and the count 3", "it holds the byte 'a' (141)",
    "nothing is disturbed"]);
});

// What is said of links: their device, errors and waits. The transcript is written by hand.
const LINK = "LOAD U J -\n120/ 400000000000 576045560000 001000000001 000000000150 000000000151 403000000220\n150/ 545653000000\n" +
  "220/ 24 25 26\nGO 100\nEXAM 0 220 1\nPEEK 0\nEXAM 0 210 1\n";

for (const [number, words] of [["24", "link end in use"], ["25", "no free link"], ["26", "nobody reads"]]) {
  test("What is said of links: " + words, () => {
    const told = toldOfSession(LINK, "J 0\nE 0 000220 0000000000" + number + "\nP 0 WAITING 635157640000 1 444400001000 000000000005 -\n" +
                               "E 0 000210 777777000003\n").flatMap(({means}) => means).join("\n");
    for (const said of ["150: the name LNK", "as an error number: " + words, "SIOT: it waits for its console or its link (WAITING)",
                        "what .IOT gives at the end of a file, an inferior or a link"]) assert.ok(told.includes(said), said);
  });
}

// A line of a session, and its kind.
for (const [text, kind] of [["", ""], ["  ", ""], ["; x", ""], [" ;x", ""], ["/ 1", "/"], ["100/ 1", "a/"], ["TICK 0 1", "TICK"], [" end", "end"]]) {
  test("The kind of '" + text + "'", () => assert.strictEqual(kindOf(wordsIn(text)), kind));
}

for (const [text, version] of [["VERSION 2", 2], ["VERSION 002", 2], ["VERSION 1", 1], ["VERSION 2 2", 1], ["\nVERSION 2", 1], ["", 1]]) {
  test("The version of " + JSON.stringify(text), () => assert.strictEqual(linesOf(text).pop().version, version));
}

test("Blocks", () => {
  const lines = linesOf("FILE D A B\n/ 1\nEOF\nLOAD U J 0\nFILE D A B\nEOF\n");
  assert.deepStrictEqual(lines.map(({block}) => block), ["", "FILE", "FILE", "", "LOAD", "LOAD", "LOAD"]);
  assert.deepStrictEqual(lines.slice(-2).map(({number, since, ended}) => [number, since, ended]), [[6, 4, false], [7, 4, true]]);
});

test("Slots", () => {
  for (const [session, transcript, slot] of [["LOAD U J 0", "J 5\n", 5], ["LOAD U J 0", "? 1 FULL\n", null], ["TICK 12 1", "T 12 1-\n", 0o12],
                                             ["DIR D", "R 440000000000 0\n", null], ["STATE", "? 1 SYNTAX\n", null]]) {
    assert.strictEqual(slotOf(told(session, transcript)[0]), slot, session);
  }
  assert.deepStrictEqual(wordsOf({line: linesOf("PEEK 0")[0], answer: ["a b"], reason: "", at: 0}), ["a", "b"]);
});

test("Answers", () => {
  const words = STATE.split(" ");
  assert.strictEqual(peekOf("P 137 USER - 0 - - -".split(" ")).slot, 0o137);
  assert.deepStrictEqual([stateOf(words).defer2, "symbol" in stateOf(words), stateOf([...words, "-", "-"]).symbol], ["000000000007", false, "-"]);
  assert.throws(() => stateOf([...words, "-"]), Wrong);
  assert.deepStrictEqual([atLine(64), atLine(12)], ["line 64 (octal 100)", "line 12 (octal 14)"]);
});

test("What can be printed, and numbers of lines", () => {
  assert.deepStrictEqual([shown("a\tb\x7f\xe9\u20ac ~"), numberOf(8)], ["a?b??? ~", "      8 (10)"]);
});

test("Long lines", () => {
  const lines = inWords({line: 1, text: "x".repeat(300), answer: ["E 0"], means: ["means"], refused: refusal(1, "LONG", {text: "why", column: 256}), plain: "y"});
  assert.deepStrictEqual(lines, ["       1 (1)  " + "x".repeat(255), " ".repeat(12) + "= y", " ".repeat(16) + "E 0", " ".repeat(20) + "means",
                                 " ".repeat(20) + "line 1 (octal 1), column 256, is refused as LONG: why"]);
});

test("A refused line has its numbers in both forms, and its place", () => {
  const refused = refusal(9, "NOCONS", {text: "no such console", column: 6});
  const [first, mark, last] = inWords({line: 9, text: "TYPE 10 101", answer: [], means: [], refused, plain: ""});
  assert.deepStrictEqual([first, first[mark.indexOf("^")]], ["      9 (11)  TYPE 10 101", "1"]);
  assert.ok(last.includes("line 9 (octal 11), column 6, is refused as NOCONS: no such console"), last);
});
