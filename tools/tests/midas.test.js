// tools/midas: texts in MIDAS and by hand, compared word by word; what is refused; and the places of literals. What the program assembles is
// compared if a build of these sources is there; the words that the translation itself gives are compared always.

import assert from "node:assert";
import {spawnSync} from "node:child_process";
import fs from "node:fs";
import os from "node:os";
import path from "node:path";
import {test} from "node:test";

import {lineOf} from "../lib/midas/characters.js";
import {translate} from "../lib/midas/translate.js";
import {Refused} from "../lib/midas/tree.js";
import {TOP, atHand, run} from "../lib/node/program.js";
import {REFUSED} from "./midas_refused.js";
import {BY_HAND, PAIRS} from "./midas_texts.js";

const PROGRAM = atHand();
const needsProgram = {skip: PROGRAM ? false : "there is no build of these sources"};
const read = (/** @type {string} */ name) => fs.readFileSync(path.join(TOP, name), "ascii");
const made = (/** @type {string} */ source) => translate(source, "test.mid");
const own = one => ({words: Object.fromEntries(one.words), symbols: Object.fromEntries(one.symbols), start: one.start});

// Octal words by address.
function wordsOf(octal, start = 0o100) {
  return Object.fromEntries(octal.split(" ").flatMap((word, at) => word === "-" ? [] : [[start + at, parseInt(word, 8)]]));
}

// What the program makes of a text.
function assembled(text) {
  const done = run([PROGRAM, "asm"], text), image = {words: {}, symbols: {}, start: -1};
  assert.strictEqual(done.status, 0, done.output + text);
  for (const line of done.output.split("\n")) {
    const [first, ...rest] = line.split(" ");
    if (first.endsWith("/")) rest.forEach((word, at) => { image.words[parseInt(first, 8) + at] = parseInt(word, 8); });
    else if (first === "SYM") image.symbols[rest[0]] = parseInt(rest[1], 8);
    else if (first === "GO") image.start = parseInt(rest[0], 8);
  }
  return image;
}

// The words and the start of what is assembled, as two texts of one program have them.
const jobOf = ({words, start}) => ({words, start});

// What refuses a text.
function refusalOf(source) {
  try {
    made(source);
  } catch (problem) {
    if (problem instanceof Refused) return problem;
    throw problem;
  }
  throw new assert.AssertionError({message: "not refused: " + source});
}

const NAMES = fs.readdirSync(path.join(TOP, "sessions", "midas")).filter(name => name.endsWith(".mid")).map(name => name.slice(0, -4));

test("each example has both forms", () => {
  const texts = fs.readdirSync(path.join(TOP, "sessions")).filter(name => name.endsWith(".asm")).map(name => name.slice(0, -4));
  assert.deepStrictEqual(texts.sort(), NAMES.filter(name => fs.existsSync(path.join(TOP, "sessions", name + ".asm"))).sort());
});

test("examples give the words of their other form", needsProgram, () => {
  for (const name of NAMES) {
    const one = translate(read("sessions/midas/" + name + ".mid"), name), other = path.join("sessions", name + ".asm");
    assert.deepStrictEqual(assembled(one.text), own(one), name);
    if (fs.existsSync(path.join(TOP, other))) assert.deepStrictEqual(jobOf(own(one)), jobOf(assembled(read(other))), name);
  }
});

test("texts give the words of the same programs by hand", needsProgram, () => {
  for (const [name, [midas, byHand]] of Object.entries(PAIRS)) {
    const one = made(midas);
    assert.deepStrictEqual(jobOf(assembled(one.text)), jobOf(assembled(byHand)), name);
    assert.deepStrictEqual(assembled(one.text), own(one), name);
  }
});

test("texts give the words of the manuals", () => {
  for (const [name, [midas, octal]] of Object.entries(BY_HAND)) {
    const one = made(midas);
    assert.deepStrictEqual(jobOf(own(one)), {words: wordsOf(octal), start: 0o100}, name);
    if (PROGRAM) assert.deepStrictEqual(assembled(one.text), own(one), name);
  }
});

test("variables", () => {
  const {symbols, words} = own(made("\tLOC 100\nGO:\tMOVEM 1,FOO'\n\tMOVEM 2,FOO\n\t.SCALAR BAR\n\t.VECTOR BAZ(3),QUX\n\tVARIABLES\nLAST:\t0\n\tEND GO\n"));
  assert.deepStrictEqual(symbols, {GO: 0o100, FOO: 0o102, BAR: 0o103, BAZ: 0o104, QUX: 0o107, LAST: 0o110});
  assert.deepStrictEqual([words[0o100], words[0o101], words[0o106]], [0o202040000102, 0o202100000102, 0]);
});

test("shifts", () => {
  const one = made("\tLOC 100\nGO:\t1_3 ? 400_<-2> ? 1_43 ? 1_44 ? <-1>_<-43>\n\tEND GO\n");
  assert.deepStrictEqual([0o100, 0o101, 0o102, 0o103, 0o104].map(at => one.words.get(at)), [0o10, 0o100, 2 ** 35, 0, 1]);
  refusalOf("\tLOC 100\nGO:\t-1_3\n\tEND GO\n");
});

test("how many characters a quote takes", () => {
  assert.strictEqual(made("S: \"ABCDE\n END S\n").words.get(0o100), Array.from("ABCDE").reduce((word, one) => word * 128 + one.charCodeAt(0), 0));
  assert.strictEqual(made("S: 'ABCDEF\n END S\n").words.get(0o100), 0o414243444546);
  assert.match(refusalOf("S: \"ABCDEF\n END S\n").cause, /at most 5 characters of ASCII may follow "/);
  assert.match(refusalOf("S: 'ABCDEFG\n END S\n").cause, /at most 6 characters of ASCII may follow '/);
  assert.match(refusalOf("S: ^\xe9\n END S\n").cause, /ASCII is wanted after \^/);
});

test("places", () => {
  assert.deepStrictEqual(lineOf("A\r\n\tB\x01\xe9C\n", {line: 2, column: 5}), ["        B??C", 11]);
  assert.deepStrictEqual(lineOf("A", {line: 3, column: 1}), ["", 0]);
});

test("the text keeps labels and comments", () => {
  const {text} = made("; A remark.\nS:\tMOVEI\t1,5\t; five\n\n\tJRST\tS\n\tEND\tS\n");
  assert.deepStrictEqual(text.split("\n").slice(1, -1), [
    "        JOB U TEST 0", "; A remark.", "        LOC 100                 ; a text without LOC begins here",
    "S:      MOVEI 1,5               ; five", "", "        JRST S", "        GO S"]);
});

test("the manual quotes what is written", () => {
  const {text} = made(read("sessions/midas/greet.mid"));
  assert.ok(read("docs/MIDAS.md").includes("```text\n" + text.slice(text.indexOf("START:")) + "```\n"));
});

test("the text says which names are others", () => {
  const {text} = made("%X==1\n$LONGER==2\nX==3\nS: MOVEI %X,$LONGER+X\n END S\n");
  for (const line of ["; The symbol %X of the source is X2 here.", "; MIDAS reads six characters of a name: $LONGER is $LONGE.",
                      "; The symbol $LONGE of the source is LONGE here.", "S:      MOVEI X2,LONGE+X"]) assert.ok(text.includes(line + "\n"), line);
});

test("the job", () => {
  assert.ok(made(" TITLE HELLO - it says hello\nS: END S\n").text.includes(" JOB U HELLO 0\n"));
  assert.ok(translate(" TITLE HELLO\nS: END S\n", "x.mid", {user: "V", job: "W", console: "-"}).text.includes(" JOB V W -\n"));
});

test("lines are short and of ASCII", () => {
  const {text} = made("S: 5 ; " + "long ".repeat(100) + "\n ; \xe9\t\xe2\x80\x93\n END S\n");
  for (const line of text.split("\n")) assert.match(line, /^[ -~]{0,255}$/);
});

test("symbols have a limit", () => {
  const text = Array.from({length: 512}, (_, at) => "S" + at.toString(8) + ": " + at.toString(8) + "\n").join("");
  assert.strictEqual(made(text + " END S0\n").words.size, 512);
  refusalOf(text + " MOVE 1,[5]\n END S0\n");
});

// Texts with one literal, 707070, and its address.
const PLACES = [
  ["S: MOVE 1,[707070]\n END S\n", "101"],
  ["S: MOVE 1,[707070]\nB: BLOCK 20\n END S\n", "121"],
  ["S: MOVE 1,[707070]\nBUF=200\nN=10.\n END S\n", "101"],
  ["S: MOVE 1,[707070]\n LOC 1000\nBUF: END S\n", "101"],
  ["S: MOVE 1,[707070]\n CONSTANTS\nBUF: END S\n", "101"],
  ["BUF==101\nS: MOVE 1,[707070]\n END S\n", "400000"],
  ["S: MOVE 1,[707070]\n LOC 42\n -6,,S\n END S\n", "101"],
  ["S: MOVE 1,[707070]\nBUF: END S\n", "400000"],
  ["SIGN==400000\nS: MOVE 1,[707070]\nBUF: END S\n", "402000"],
  ["S: MOVE 1,[707070]\n LOC 400000\nHIGH: 5\n LOC 101\nBUF: END S\n", "400001"]];

test("literals that are left at the end", () => {
  for (const [source, octal] of PLACES) {
    const one = made(source);
    assert.deepStrictEqual([...one.words].filter(([, word]) => word === 0o707070).map(([at]) => at), [parseInt(octal, 8)], one.text);
    if (PROGRAM) assert.deepStrictEqual(assembled(one.text), own(one));
  }
  assert.deepStrictEqual(own(made("S: MOVE 1,[5]\nE: END .-1\n")).symbols, {S: 0o100, E: 0o101, LIT1: 0o400000});
  assert.match(refusalOf("S: MOVE 1,[707070]\n BLOCK 777000\nBUF: END S\n").cause, /no place/);
});

test("causes of refusals", () => {
  for (const [source, line, column, cause] of REFUSED) {
    const problem = refusalOf(source);
    assert.ok(problem.cause.includes(cause), problem.cause);
    assert.deepStrictEqual([problem.at.line, problem.at.column], [line, column], source + ": " + problem.cause);
  }
});

test("how a refusal is said", () => {
  const folder = fs.mkdtempSync(path.join(os.tmpdir(), "midas-")), file = path.join(folder, "wrong.mid");
  fs.writeFileSync(file, "\n".repeat(8) + "S:\tRADIX\tFOO\n");
  const done = spawnSync(path.join(TOP, "tools", "midas"), [file]);
  fs.rmSync(folder, {recursive: true});
  const told = done.stderr.toString().split("\n");
  assert.deepStrictEqual([done.status, done.stdout.toString()], [1, ""]);
  assert.ok(told[0].includes("line 9 (octal 11), column 9: RADIX: "), told[0]);
  assert.deepStrictEqual(told.slice(1), ["  S:      RADIX   FOO", "          ^", ""]);
});
