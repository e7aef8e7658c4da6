// The state part of a session, which `its save` writes: its lines and what is said of them (tools/lib/session.js, state_said.js), why one is refused
// (tools/lib/state_causes.js), and the story of a session that begins with it. The lines show nothing, so most of this needs no program.

import assert from "node:assert";
import {test} from "node:test";

import {WRITTEN, formOf} from "../lib/causes.js";
import {momentCount} from "../lib/counting.js";
import {wholeOf} from "../lib/resuming.js";
import {STATE_LINES, asVersion2, isInState, isOpenAfter, linesOf} from "../lib/session.js";
import {tellStory} from "../lib/story.js";
import {answer, textOf, told, toldOfSession} from "./shared.js";

const JOB = "SYSTEM 1\nCLOCK 0\nJOB 0 U EDIT 0\n000100/ 254000000100\nREGS RUN 010000000100 0 0 0 0 0 0\n";
const TWO = JOB + "JOB 1 655746566300 000000000012 -\nREGS STOP 410000000105 201 0 100 0 0 7\n", FILE = "FILE D A B\n/ 1 2\n";

test("Where a line is", () => {
  const lines = linesOf("SYSTEM 2\nFILE D A B\n/ 1\nJOB 0 U J -\nREADY\nFILE D A C\nEOF\nSYSTEM 1\n");
  assert.deepStrictEqual(lines.map(({kind, block}) => kind + " " + block),
                         ["SYSTEM ", "FILE SYSTEM", "/ SYSTEM", "JOB SYSTEM", "READY SYSTEM", "FILE ", "EOF FILE", "SYSTEM ", " "]);
  assert.deepStrictEqual(lines.map(isInState), [true, true, true, true, true, false, false, false, false]);
  assert.deepStrictEqual(lines.slice(0, 7).map(isOpenAfter), [true, true, true, true, false, true, false]);
  assert.ok(lines.every(({version}) => version === 2));
  assert.strictEqual(linesOf("CLOCK 1\nSYSTEM 2\n")[1].version, 1);
  assert.strictEqual(momentCount(lines.slice(0, 7)), 3);
  assert.deepStrictEqual(linesOf("END\n").map(isInState), [false, false]);
});

test("A session as one of version 2", () => {
  for (const [first, found] of [["SYSTEM 1", ["SYSTEM 2"]], ["VERSION 1", ["VERSION 2"]], [" VERSION 2", ["VERSION 2"]], ["CLOCK 1", ["VERSION 2", "CLOCK 1"]]]) {
    assert.deepStrictEqual(asVersion2([first, "END"]), [...found, "END"]);
  }
  assert.deepStrictEqual(asVersion2([]), ["VERSION 2"]);
});

test("What of a state part that was broken off is whole", () => {
  assert.deepStrictEqual([wholeOf(JOB + FILE), wholeOf(JOB + FILE + "READY\nTICK 0 1\nTI")], ["", JOB + FILE + "READY\nTICK 0 1\n"]);
});

test("The manual has the same forms of the state part", () => {
  const table = textOf("docs/SESSION.md").split("### The state part")[1].split("\n|---|---|---|\n")[1].split("\n\n")[0];
  const rows = table.split("\n").map(row => row.split(" | ")[0]), written = rows.flatMap(row => [...row.matchAll(/`([^`]*)`/g)].map(([, form]) => form));
  assert.deepStrictEqual(STATE_LINES.filter(kind => !written.some(form => WRITTEN[kind] === form || WRITTEN[kind].startsWith(form + " and 1 to "))), []);
  assert.deepStrictEqual(written.map(form => form.split(" ")[0]).filter(kind => !STATE_LINES.includes(kind)), ["CLOCK", "FILE", "/", "a/", "RO", "SYM"]);
  assert.deepStrictEqual(formOf(linesOf("SYSTEM 1\nSYM 655746566300 1\n")[1]), ["tag", "n"]);
});

// What the last line of a state part means.
const MEANS = [
  ["SYSTEM 1", ["the state part: its lines, up to READY, make a system, in version 1 of the session text"]],
  ["SYSTEM 1\nCLOCK 36", ["the clock reaches 36 thirtieths of a second, 1.0 seconds in decimal"]],
  ["SYSTEM 2\nFILE D 000000000012 B", ["a file 000000000012 B in directory D"]],
  ["SYSTEM 1\nFILE D A B\n/ 1", []],
  ["SYSTEM 1\nJOB 0 U EDIT 0", ["a job U EDIT is made in slot 0, with console 0"]],
  ["SYSTEM 2\nJOB 137 655746566300 J -", ["a job UOFNS J is made in slot 137, without a console"]],
  ["SYSTEM 1\nJOB 1 000000000000 J -", ["a job 000000000000 J is made in slot 1, without a console"]],
  [JOB.trimEnd(), ["the job in slot 0 runs, PC 100, no flag on"]],
  [TWO.trimEnd(), ["the job in slot 1 is stopped, PC 105, flags: overflow", "pending: BRK, a .BREAK; INF, an inferior was stopped or logged out (fatal)",
                   "mask: PDL, a pushdown count ran out", "deferred, word 2: 7"]],
  ["SYSTEM 1\nJOB 0 U J -\n100/ 0\nSYM START 100\nREGS RUN 010000000102 0 0 0 0 0 0", ["the job in slot 0 runs, PC 102 (START+2), no flag on"]],
  ["SYSTEM 1\nJOB 0 U J -\n100/ 43000000120 1 045700000000", ["100: .CALL 120; 102: .BREAK 16,"]],
  ["SYSTEM 1\nJOB 3 U J -\n2000/ 0\nRO 1", ["page 1 (addresses 2000 to 3777) of slot 3 becomes read only"]],
  [JOB + "ALARM 0 36 1000", ["slot 0 has an alarm, next when the clock is at 1000, then each 36 thirtieths of a second"]],
  [TWO + "UNDER 1 0", ["slot 0 is the superior of slot 1"]],
  [JOB + "TTY 0 1 0", ["channel 1 of slot 0 is on its console, for input"]],
  [JOB + "TTY 0 17 01", ["channel 17 of slot 0 is on its console, for output"]],
  [JOB + "DSK 0 2 D A B 5", ["channel 2 of slot 0 reads the file A B in directory D, from word 5 on"]],
  [JOB + "DRAFT 0 2 D A B", ["channel 2 of slot 0 writes a draft of the file A B in directory D"]],
  [JOB + "DRAFT 0 2 D A B\nWROTE 0 2 1 2", ["the draft of channel 2 of slot 0 has 2 more words"]],
  [TWO + "UNDER 1 0\nUSR 0 3 1 1 100", ["channel 3 of slot 0 is on its inferior in slot 1, to read and write, at word 100"]],
  [TWO + "UNDER 1 0\nUSR 0 3 1 0 0", ["channel 3 of slot 0 is on its inferior in slot 1, to read, at word 0"]],
  [JOB + "LNK 0 4 1 1 A B", ["channel 4 of slot 0 is the writing end of link 1, A B"]],
  [JOB + "LNK 0 4 1 0 A B\nSENT 1 5", ["1 more word waits in link 1"]],
  [JOB + "LNK 0 4 1 0 A B\nSHUT 1 1", ["the writing end of link 1 is closed, and was never opened"]],
  [JOB + "IN 0 142 15", ['typed at console 0, and not taken: "b<15>"']],
  [JOB + "OUT 0 142", ['put out at console 0, and not drained: "b"']],
  [JOB + "HOLD 0 0", ["slot 0 holds console 0"]],
  [JOB + "TURN 0", ["slot 0 had the last turn of RUN"]],
  [JOB + "READY", ["the system is made: what follows goes on from here"]],
  [JOB + "; a comment", []],
  [JOB + "READY\nEXAM 0 100 1", null, "E 0 000100 254000000100"],
];

for (const [session, means, shown = ""] of MEANS) {
  test("It means: " + session.split("\n").pop(), () => {
    const last = toldOfSession(session + "\n", shown && shown + "\n").pop();
    assert.strictEqual(last.refused, null);
    if (means) assert.deepStrictEqual(last.means, means);
  });
}

// A session, the reason for which its last line is refused, the column, and the cause.
const REFUSED = [
  ["CLOCK 1\nSYSTEM 1\n", "SYNTAX", 1, "not allowed here: SYSTEM is allowed in line 1 alone"],
  ["SYSTEM 3\n", "RANGE", 8, "the version is 1 to 2 here (1 to 2 in decimal), and this is 3 (3)"],
  ["JOB 0 U J -\n", "SYNTAX", 1, "not allowed here: JOB lines are allowed only in the state part, after SYSTEM in line 1, up to its READY"],
  ["SYSTEM 1\nTICK 0 1\n", "SYNTAX", 1, "not allowed here: the state part is open since line 1 (octal 1), and up to its READY only its own lines are allowed"],
  ["SYSTEM 1\nREADY\nREADY\n", "SYNTAX", 1, "not allowed here: READY lines are allowed only in the state part, after SYSTEM in line 1, up to its READY"],
  ["SYSTEM 1\nREADY\nRUN 1 1\n", "SYNTAX", 1, "RUN lines are of version 2 of the session text: line 1 has to be SYSTEM 2"],
  ["SYSTEM 1\nCLOCK 0\n", "CUT", null, "the input ends inside the state part, which is open since line 1 (octal 1): its READY is missing"],
  ["SYSTEM 1\nJOB 0 U J\n", "SYNTAX", 10, "too few words: it is written JOB s u j c"],
  ["SYSTEM 1\nJOB 0 U 6557465663000 -\n", "SYNTAX", 9, "a name, or the 12 digits of a word, is wanted here"],
  ["SYSTEM 1\nJOB 0 U SEVENTH -\n", "SYNTAX", 15, "a name of 7 letters: it may have 6"],
  ["SYSTEM 1\nREGS GO 0 0 0 0 0 0 0\n", "SYNTAX", 6, "RUN or STOP is wanted here"],
  ["SYSTEM 1\nREGS RUN 8 0 0 0 0 0 0\n", "SYNTAX", 10, "the digit 8: numbers are octal, and have the digits 0 to 7"],
  [JOB + "IN 0\n", "SYNTAX", 5, "too few words: it is written IN c and 1 to 32 bytes"],
  [JOB + "WROTE 0 1" + " 1".repeat(17) + "\n", "SYNTAX", 43, "17 words: a line has 16 at most; begin another line"],
  [JOB + "LNK 0 20 0 0 A B\n", "RANGE", 7, "a channel is 0 to 17 here (0 to 15 in decimal), and this is 20 (16)"],
  [JOB + "LNK 0 0 20 0 A B\n", "RANGE", 9, "a link is 0 to 17 here (0 to 15 in decimal), and this is 20 (16)"],
  [JOB + "TTY 0 1 2\n", "RANGE", 9, "what is 1 or 0 is 0 to 1 here (0 to 1 in decimal), and this is 2 (2)"],
  ["SYSTEM 1\nJOB 100 U J -\n", "RANGE", 5, "a slot is 0 to 77 here (0 to 63 in decimal), and this is 100 (64)"],
  [JOB + "IN 0 200\n", "RANGE", 6, "a byte is 0 to 177 here (0 to 127 in decimal), and this is 200 (128)"],
  [JOB + "ALARM 0 0 1\n", "RANGE", 9, "the period of an alarm is 1 to 200000000000 here (1 to 17179869184 in decimal), and this is 0 (0)"],
  ["SYSTEM 1\nCLOCK 5\nJOB 0 U J -\nALARM 0 1 5\n", "RANGE", 11, "the clock is at 5, and an alarm comes later, not at 5"],
  ["SYSTEM 1\nCLOCK 200000000000\n", "RANGE", 7, "the clock is at 0, and has to stay below 200000000000"],
  ["SYSTEM 1\nJOB 0 U J 10\n", "NOCONS", 11, "consoles are 0 to 7"],
  [JOB + "HOLD 10 0\n", "NOCONS", 6, "consoles are 0 to 7"],
  ["SYSTEM 1\n100/ 1\n", "NOJOB", 1, "no JOB line comes before, about whose job this line would be"],
  ["SYSTEM 1\nREGS RUN 0 0 0 0 0 0 0\n", "NOJOB", 1, "no JOB line comes before, about whose job this line would be"],
  [JOB + "TURN 1\nUNDER 0 1\n", "NOJOB", 9, "there is no job in slot 1; JOB has made jobs in slot 0"],
  ["SYSTEM 1\nHOLD 0 1\n", "NOJOB", 8, "there is no job in slot 1; JOB has made none"],
  ["SYSTEM 1\n/ 1\n", "NOFILE", 1, "no FILE line comes before, to whose file these words would be added"],
  [JOB + "DSK 0 1 D A B 0\n", "NOFILE", 9, "no file has these names: directory, name 1, name 2"],
  ["SYSTEM 1\nFILE D A B\nFILE D A B\n", "EXISTS", 6, "there is already a file with these names"],
  [JOB + "JOB 0 U J -\n", "EXISTS", 5, "there is already a job in slot 0"],
  [TWO + "UNDER 1 0\nUNDER 1 0\n", "EXISTS", 7, "slot 1 has a superior already"],
  [JOB + "TTY 0 1 0\nTTY 0 1 1\n", "EXISTS", 7, "channel 1 of slot 0 is open already"],
  [JOB + "LNK 0 1 0 0 A B\nLNK 0 2 0 0 A B\n", "EXISTS", 7,
   "channel 2 of slot 0 is open already, or link 0 has other names, or this end of it was opened before"],
  [JOB + "LNK 0 1 0 0 A B\nSHUT 0 0\n", "EXISTS", 8, "the reading end of link 0 was opened or closed before"],
  [JOB + "HOLD 0 0\nHOLD 0 0\n", "EXISTS", 6, "console 0 has a holder already"],
  [JOB + "READY\nSTATE 2\n", "NOJOB", 7, "there is no job in slot 2 now; JOB and LOAD have made jobs in slot 0"],
  [JOB + "UNDER 0 0\n", "UNFIT", 9, "a job is not its own superior"],
  [TWO + "UNDER 1 0\nUNDER 0 1\n", "UNFIT", 9, "slot 1 is below slot 0: no job is below itself"],
  [TWO + "TTY 1 1 0\n", "UNFIT", 5, "the job in slot 1 has no console"],
  [JOB + "WROTE 0 1 1\n", "UNFIT", 9, "channel 1 of slot 0 writes no draft"],
  [TWO + "USR 0 1 1 0 0\n", "UNFIT", 9, "slot 1 is no inferior of slot 0"],
  [JOB + "SENT 3 1\n", "UNFIT", 6, "there is no link 3"],
  [JOB + "SHUT 3 1\n", "UNFIT", 6, "there is no link 3"],
  [JOB + "IN 0" + " 1".repeat(32) + "\nIN 0" + " 1".repeat(32) + "\nIN 0 1\n", "FULL", 1, "a console keeps 64 bytes at most, and none is dropped here"],
  [JOB + "LNK 0 1 0 0 A B\n" + ("SENT 0" + " 1".repeat(16) + "\n").repeat(4) + "SENT 0 1\n", "FULL", 1, "a link has 64 words at most"],
];

for (const [session, reason, column, text] of REFUSED) {
  test(reason + ": " + text, () => {
    const lines = toldOfSession(session), {refused, line} = lines[lines.length - 1];
    assert.deepStrictEqual(refused, {reason, octal: line.toString(8), column, cause: text});
  });
}

test("The reasons that no short session has", () => {
  for (const [session, reason, text] of [[JOB + "DRAFT 0 1 D A B\nWROTE 0 1 1", "FULL", "all 2048 blocks of files are in use"],
                                         [JOB + "FILE D A B", "FULL", "there are 256 files, the most that there can be"],
                                         [JOB + "2000/ 1", "READONLY", "a word of this line lies on a page that is read only"]]) {
    const lines = session.split("\n").length, found = toldOfSession(session + "\n", "? " + lines.toString(8) + " " + reason + "\n").pop().refused;
    assert.strictEqual(found.cause, text);
  }
});

test("The story has the jobs of the state part, and no other line of it", () => {
  const story = tellStory("the session", told(TWO + "UNDER 1 0\nIN 0 142\nREADY\nTICK 0 2\n", "T 0 2*\n"));
  assert.deepStrictEqual(story.lanes.map(({slot, names, note}) => [slot, names, note]), [[0, "U EDIT", "console 0"], [1, "UOFNS 000000000012", "inferior of slot 0"]]);
  assert.deepStrictEqual(story.pieces.map(({kind, letter}) => kind || letter), ["made", "made", "*"]);
});

test("What is said of a whole system that is saved", () => {
  for (const name of ["echo", "parent", "link", "alarm", "close", "debug"]) {
    const saved = answer("save", textOf("sessions/" + name + ".its")), lines = toldOfSession(saved);
    assert.ok(lines.every(({refused}) => refused === null), name);
    assert.deepStrictEqual([lines[0].text, lines[lines.length - 1].text], [saved.split("\n")[0], "READY"]);
  }
});
