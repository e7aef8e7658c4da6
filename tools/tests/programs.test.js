// The programs of system/, each by a session of its own: people at the consoles of a system in the module of the page.

import assert from "node:assert";
import {test} from "node:test";

import {typeLine} from "../lib/desk.js";
import {Folder} from "../lib/node/folder.js";
import {useProgram} from "../lib/node/program.js";
import {split} from "../lib/session.js";
import {octal} from "../lib/words.js";
import {evening, system} from "./evening.js";
import {engine} from "./page.js";
import {folderOf} from "./shared.js";

const BEGIN = system(), LOGINS = [[0, "login joe\r"], [1, "login ann\r"]];

/** What the first two consoles show of these steps, after both have logged in. Its transcript is one that verify accepts. */
function seen(...steps) {
  const found = evening(BEGIN, [...LOGINS, ...steps]);
  assert.match(engine.call(["verify"], found.session + found.transcript).output, /^YES/);
  return found.seen.slice(LOGINS.length, -1).map(([joe, ann], at) => [joe, ann][steps[at][0]].replace(/^[^\r]*\r\n/, ""));
}

test("a folder without start.its begins with these programs", async () => {
  useProgram(([kind], input) => engine.call([kind], input));
  const {beginningOf, verified} = await import("../commands/timesharing.js");
  assert.strictEqual(beginningOf("its", folderOf()), BEGIN);
  assert.strictEqual(beginningOf("its", folderOf({"start.its": "VERSION 2\nCLOCK 1\nEND\nCLOCK 2\n"})), "VERSION 2\nCLOCK 1\n");
  assert.throws(() => beginningOf("its", folderOf({"start.its": "CLOCK 1\n"})), /start.its: its first line has to be VERSION 2/);
  for (const [transcript, said, status] of [["T 0 2-\n", "YES 1", 0], ["T 0 2*\n", "NO 1", 1], ["", "NO 1", 1]]) {
    const folder = new Folder(folderOf({"session.its": "VERSION 2\nTICK 0 2\n", "session.out": transcript}), false);
    assert.deepStrictEqual(verified("its", folder), [folder.path + ": verify says " + said, status]);
  }
});

test("HACTRN: names, a list, what is no program, and who is there", () => {
  const {seen: all} = evening(BEGIN, [[0, "who\r"], [0, "calc\r"], ...LOGINS, [0, "login x\r"], [0, "who\r"], [0, "list\r"], [0, "none\r"], [0, "\r"], [1, "logout\r"], [0, "who\r"]]);
  assert.deepStrictEqual(all.map(([joe]) => joe.replace(/^[^\r]*\r\n/, "")).slice(0, -1),
                         ["\r\n*who\r\n\r\n*", "LOGIN FIRST.\r\n\r\n*", "\r\n*", "", "YOU ARE LOGGED IN. \r\n\r\n*", "TTY0 JOE \r\nTTY1 ANN \r\n\r\n*",
                          "CALC  EDIT  MAIL  TALK  \r\n\r\n*", "NO SUCH PROGRAM. \r\n\r\n*", "\r\n*", "", "TTY0 JOE \r\n\r\n*"]);
});

test("HACTRN: a program is stopped in its call, looked at by symbols, changed, and goes on", () => {
  assert.deepStrictEqual(seen([0, "calc\r"], [0, "12\x1a"], [0, "exam number 2\r"], [0, "exam n\r"], [0, "dep n 7\r"], [0, "cont\r"], [0, "=q"], [0, "cont\r"]), [
    "", "STOPPED AT 000107\r\n*", "000106/ 201200000000\r\n000107/ 040040000001\r\n\r\n*", "000004/ 000000000012\r\n\r\n*", "\r\n*", "", "\r\n*", "NO PROGRAM. \r\n\r\n*"]);
});

test("HACTRN: a breakpoint, a fault, and the end of a program", () => {
  assert.deepStrictEqual(seen([0, "calc\r"], [0, "\x1a"], [0, "break next+1\r"], [0, "cont\r"], [0, "5"], [0, "cont\r"], [0, "6="], [0, "\x1a"], [0, "dep next 0\r"], [0, "cont\r"],
                              [0, "edit\r"], [0, "kill\r"], [0, "exam 1\r"]),
                         ["", "STOPPED AT 000107\r\n*", "\r\n*", "", "BREAK AT 000110\r\n*", "5", "", "STOPPED AT 000107\r\n*", "\r\n*", "\r\nFAULT AT 000107\r\n*",
                          "A PROGRAM IS THERE: CONT OR KILL. \r\n\r\n*", "\r\n*", "NO PROGRAM. \r\n\r\n*"]);
});

test("CALC: from the left to the right, in octal, and what it does not know", () => {
  const {seen: all} = evening(BEGIN, [...LOGINS, [0, "calc\r"], [0, "12+7\r"], [0, "3-5="], [0, "7*7+1="], [0, "7/0="], [0, "20/3="], [0, "x"], [0, "q"]]);
  assert.deepStrictEqual(all.slice(2, -1).map(([joe]) => joe), ["calc\r\n", "12+7=21\r\n", "3-5=-2\r\n", "7*7+1=62\r\n", "7/0?\r\n", "20/3=5\r\n", "x?\r\n", "\r\n*"]);
});

test("EDIT: lines that are put in, deleted, written and read again", () => {
  assert.deepStrictEqual(seen([0, "edit a txt\r"], [0, "i\rone\rthree\r.\r"], [0, "i 2\rtwo\r.\r"], [0, "l\r"], [0, "d 1\r"], [0, "d 3\r"], [0, "w\r"], [0, "q\r"], [0, "print a txt\r"],
                              [1, "edit a txt joe\r"], [1, "l\r"]),
                         ["NEW FILE. \r\n>", "one\r\nthree\r\n.\r\n>", "two\r\n.\r\n>", "001 one\r\n002 two\r\n003 three\r\n>", ">", "WHAT? \r\n>", "WRITTEN. \r\n>", "\r\n*",
                          "two\r\nthree\r\n\r\n\r\n*", ">", "001 two\r\n002 three\r\n>"]);
});

test("MAIL: lines are added to those that are there", () => {
  assert.deepStrictEqual(seen([0, "print mail box\r"], [1, "mail joe\r"], [1, "see you\rat teb\x7f\x7fnine\r.\r"], [1, "mail joe\ragain\r.\r"], [0, "print mail box\r"], [0, "mail\r"]),
                         ["ERROR 06\r\n\r\n*", "A DOT ALONE ENDS IT. \r\n\r\n", "at teb\b \b\b \b\b \b\b \b\b \b\b \bnine\r\n.\r\nSENT. \r\n\r\n*", "A DOT ALONE ENDS IT. \r\n\r\nagain\r\n.\r\nSENT. \r\n\r\n*",
                          "FROM ANN \r\nsee you\r\nnine\r\nFROM ANN \r\nagain\r\n\r\n\r\n*", "MAIL TO WHOM? \r\n\r\n*"]);
});

test("TALK: each key appears at the other console, also after one was stopped meanwhile", () => {
  const {seen: all} = evening(BEGIN, [...LOGINS, [0, "talk ann\r"], [0, "early"], [1, "talk joe\r"], [0, "\x1a"], [1, "are you there"], [0, "cont\r"], [0, "yes\r"], [1, "\x04"]]);
  assert.deepStrictEqual(all.slice(4, -1).map(([joe, ann]) => [joe, ann]), [
    ["", "talk joe\r\n^D LEAVES. \r\nearly"], ["\r\nSTOPPED AT 000141\r\n*", ""], ["", "are you there"], ["cont\r\nare you there", ""], ["yes\r\n", "yes\r\n"],
    ["THE OTHER HAS LEFT. \r\n\r\n*", "\r\n*"]]);
});

const JOB = "12";                        // the slot of the program of the first two people: after eight command jobs and two listeners
const IOT = "515764000000", SLEEP = "635445456000";

/** The lines that type these keys at a console, each with a circle of turns. */
function keyLines(console, keys) { return [...keys].map(key => typeLine(console, [key.charCodeAt(0)]) + "\nRUN 60 100\n").join(""); }

/** What PEEK shows in a transcript: the state of each job and its call. */
function peeked(transcript) { return split(transcript).filter(line => line.startsWith("P ")).map(line => line.split(" ").slice(2, 4).join(" ")); }

test("HALT: a program is stopped from another console while it waits for a key, and goes on", () => {
  const {seen: all, session, transcript} = evening(BEGIN, [...LOGINS, [0, "calc\r"], [0, "12+"], [-1, "PEEK " + JOB], [1, "halt 0\r"], [0, "exam number+1\r"], [0, "cont\r"], [0, "7="]]);
  assert.match(engine.call(["verify"], session + transcript).output, /^YES/);
  assert.deepStrictEqual(peeked(transcript), ["WAITING " + IOT]);
  assert.deepStrictEqual(all.slice(5, -1).map(([joe, ann]) => [joe, ann]), [
    ["\r\nSTOPPED BY CONSOLE 1 AT 000107\r\n*", "halt 0\r\nIT IS STOPPED. \r\n\r\n*"],
    ["exam number+1\r\n000107/ 040040000001\r\n\r\n*", ""], ["cont\r\n", ""], ["7=21\r\n", ""]]);
});

test("HALT: a program is stopped in the middle of its output, of which nothing is lost or shown twice", () => {
  const line = "the quick brown fox jumps over 0123456789", lines = new Array(3).fill([0, line + "\r"]);
  const asked = keyLines(0, "l\r") + "RUN 400 100\nPEEK " + JOB + "\n" + keyLines(1, "halt 0\r") + "RUN 100 100\nPEEK " + JOB + "\n";
  const {seen: all, transcript} = evening(BEGIN, [...LOGINS, [0, "edit a txt\r"], [0, "i\r"], ...lines, [0, ".\r"], [-1, asked], [0, "cont\r"]]);
  const [before, after] = all.slice(8, 10).map(([joe]) => joe), [stopped, rest] = [/^l\r\n(.*)\r\nSTOPPED BY CONSOLE 1 AT \d{6}\r\n\*$/s, /^cont\r\n(.*)>$/s];
  assert.deepStrictEqual(peeked(transcript), ["WAITING " + IOT, "USER -"]);
  assert.match(before, stopped);
  assert.match(after, rest);
  assert.strictEqual(stopped.exec(before)[1] + rest.exec(after)[1], [1, 2, 3].map(at => "00" + at + " " + line + "\r\n").join(""));
});

test("HALT: a program is stopped in its sleep, and sleeps on", () => {
  // MAIL waits a second if the link of its box has a writer, as one has who talks to somebody of the name MAIL
  const {seen: all, transcript} = evening(BEGIN, [...LOGINS, [2, "login bob\r"], [2, "talk mail\r"], [0, "mail bob\r"], [0, "hello\r.\r"], [-1, "PEEK 15"], [1, "halt 0\r"], [0, "cont\r"],
                                                  [2, "\x04"], [-1, "CLOCK 36"], [2, "print mail box\r"]]);
  assert.deepStrictEqual(peeked(transcript), ["WAITING " + SLEEP]);
  assert.match(all[7][0], /^\r\nSTOPPED BY CONSOLE 1 AT \d{6}\r\n\*$/);
  assert.deepStrictEqual([all[8][0], all[9][0], all[10][0], all[11][2]], ["cont\r\n", "", "SENT. \r\n\r\n*", "print mail box\r\nFROM JOE \r\nhello\r\n\r\n\r\n*"]);
});

test("HALT: what is answered, and REFUSE", () => {
  const {seen: all} = evening(BEGIN, [[1, "halt 0\r"], ...LOGINS, [1, "halt 0\r"], [1, "halt 1\r"], [1, "halt 2\r"], [1, "halt 8\r"], [1, "halt 00\r"], [1, "halt\r"], [1, "halt joe\r"],
                                      [0, "refuse on\r"], [0, "calc\r"], [1, "halt 0\r"], [0, "\x1a"], [0, "refuse off\r"], [1, "halt 0\r"], [0, "cont\r"], [1, "halt 0\r"],
                                      [0, "refuse on\r"], [0, "logout\r"], [1, "halt 0\r"], [0, "login bob\r"], [0, "refuse\r"], [0, "refuse x\r"], [0, "calc\r"], [1, "halt 0\r"]]);
  const answers = all.map(([joe, ann]) => /^halt/.test(ann) ? ann.split("\r\n")[1].trim() : /^refuse/.test(joe) ? joe.split("\r\n")[1].trim() : "").filter(Boolean);
  assert.deepStrictEqual(answers, ["NO PROGRAM RUNS THERE.", "NO PROGRAM RUNS THERE.", "NOBODY IS THERE.", "WHAT?", "WHAT?", "WHAT?", "WHAT?",
                                   "REQUESTS ARE REFUSED.", "REFUSED.", "REQUESTS ARE OBEYED.", "NO PROGRAM RUNS THERE.", "IT IS STOPPED.",
                                   "REQUESTS ARE REFUSED.", "NOBODY IS THERE.", "REQUESTS ARE OBEYED.", "WHAT?", "IT IS STOPPED."]);
  assert.match(all[0][1], /halt 0\r\nLOGIN FIRST\.\r\n\r\n\*$/);
});

test("HALT: a program that ends, goes on or is stopped by its owner at any tick of a request", () => {
  const acts = {"q": "TYPE 0 161", "a digit": "TYPE 0 65", "Control-Z": "INT 0 0 1"}, found = {};
  for (const [name, act] of Object.entries(acts)) {
    const steps = [], ticks = Array.from({length: 36}, (_, at) => octal(at + 24));
    for (const tick of ticks) {          // HALT has sent its word, and the listener has stopped; then so many ticks of the command job
      steps.push([0, "calc\r"], [1, "halt 0"], [-1, "TYPE 1 15\n" + "TICK 1 1000\n".repeat(4) + "TICK 10 200\nTICK 0 " + tick + "\n" + act + "\n" + "RUN 1000 1\n".repeat(3)], [0, "\x15kill\r"]);
    }
    const {seen: all} = evening(BEGIN, [...LOGINS, ...steps]);
    found[name] = new Set(ticks.map((_, at) => all[2 + 4 * at + 2].join("").replace(/AT \d{6}/, "AT").replace(/\*[q5]/, "*").replace(/^5/, "")));
  }
  const gone = "\r\n*\r\nNO PROGRAM RUNS THERE.\r\n\r\n*", stopped = "\r\nSTOPPED BY CONSOLE 1 AT\r\n*\r\nIT IS STOPPED. \r\n\r\n*";
  assert.deepStrictEqual(found, {"q": new Set([gone, stopped]), "a digit": new Set([stopped]), "Control-Z": new Set([stopped])});
});

/** The lines of a job that opens links, sleeps a second and leaves.
 * @param {string} opens the words that open them, with the block LINK */
function holder(opens, block, words) {
  const text = ["JOB U HOLD -", "LOC 100", "START: MOVEI 1,1", ...opens, ".CALL NAP", ".BREAK 16,", ".CALL OUT", "LINK: WORD 400000,,0", "SIXBIT OPEN", ...block,
                "NAP: WORD 400000,,0", "SIXBIT SLEEP", "WORD 400000,,TIME", "OUT: WORD 400000,,0", "SIXBIT LOGOUT", "WORD 405000,,0", "TIME: WORD 36", "LNK: SIXBIT LNK", ...words, "GO START"];
  return engine.answer("asm", text.join("\n") + "\n").replace(/^VERSION 2\n/, "").replace("END\n", "");
}

test("HALT: no answer, because another job has the link; Control-Z leaves, and the listener has it later", () => {
  const hold = holder([".CALL LINK", ".BREAK 16,"], ["WORD 1000,,1", "WORD 0,,LNK", "WORD 0,,ONE", "WORD 400000,,TWO"], ["ONE: SIXBIT TTY0", "TWO: SIXBIT HALT"]);
  const {seen: all} = evening(BEGIN, [[-1, hold], ...LOGINS, [0, "calc\r"], [1, "halt 0\r"], [1, "\x1a"], [-1, "CLOCK 36"], [-1, "CLOCK 36"], [1, "halt 0\r"]]);
  assert.deepStrictEqual(all.slice(4, 6).map(([, ann]) => ann), ["halt 0\r\n", "NO ANSWER. \r\n\r\n*"]);
  assert.deepStrictEqual(all[8].slice(0, 2), ["\r\nSTOPPED BY CONSOLE 1 AT 000107\r\n*", "halt 0\r\nIT IS STOPPED. \r\n\r\n*"]);
});

test("HALT: there is no link left, and later there is one", () => {
  const hold = holder(["NEXT: .CALL LINK", ".BREAK 16,", "CAIGE 1,17", "AOJA 1,NEXT"], ["WORD 0,,1", "WORD 0,,LNK", "WORD 400000,,1"], []);
  const {seen: all} = evening(BEGIN, [[-1, hold], ...LOGINS, [1, "calc\r"], [0, "halt 1\r"], [-1, "CLOCK 36"], [-1, "CLOCK 36"], [0, "halt 1\r"]]);
  assert.strictEqual(all[4][0], "halt 1\r\nERROR 25\r\n\r\n*");
  assert.deepStrictEqual(all[7].slice(0, 2), ["halt 1\r\nIT IS STOPPED. \r\n\r\n*", "\r\nSTOPPED BY CONSOLE 0 AT 000107\r\n*"]);
});

test("HALT: one job asks at a time", () => {
  for (const [control, name] of [["0", "HALTED"], ["1", "HALT"]]) {       // the end that HALT opens first, and the one that it opens then
    const hold = holder([".CALL LINK", ".BREAK 16,"], ["WORD 5000,," + control, "WORD 1000,,1", "WORD 0,,LNK", "WORD 0,,ONE", "WORD 400000,,TWO"], ["ONE: SIXBIT TTY0", "TWO: SIXBIT " + name]);
    const {seen: all} = evening(BEGIN, [...LOGINS, [-1, hold], [0, "calc\r"], [1, "halt 0\r"], [-1, "CLOCK 36"], [1, "halt 0\r"]]);
    assert.deepStrictEqual([4, 6].map(at => all[at][1]), ["halt 0\r\nSOMEBODY ELSE ASKS THERE. TRY AGAIN.\r\n\r\n*", "halt 0\r\nIT IS STOPPED. \r\n\r\n*"]);
  }
});

test("LOGIN: no slot or no core for a listener, and later there is", () => {
  const hold = holder([], ["WORD 400000,,0"], []), full = new Array(87).fill("LOAD F X -\nGO 20\n").join(""), pages = count => Array.from({length: count}, (_, page) => octal(page * 1024 + 16) + "/ 0\n").join("");
  const core = [256, 256, 256, 1024 - 3 * 256 - 8 * 2 - 1].map(count => "LOAD F X -\n" + pages(count) + "GO 20\n").join("");
  for (const [some, error] of [[full, "14"], [core, "15"]]) {
    const {seen: all} = evening(BEGIN, [[-1, hold + some], [0, "login joe\r"], [0, "who\r"], [-1, "CLOCK 36"], [0, "login joe\r"], [1, "login ann\r"], [0, "who\r"]]);
    assert.deepStrictEqual([all[1][0], all[2][0], all[4][0], all[6][0]].map(shown => shown.split("\r\n")[1]), ["ERROR " + error, "", "", "TTY0 JOE "]);
  }
});
