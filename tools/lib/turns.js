// Shared by the page and the commands: how jobs run while somebody sits at a console: in growing
// pieces, until all that run wait, or a bound of ticks is met.

import {number, octal} from "./words.js";

/** Ticks of one slot, each as its letter.
 * @typedef {{slot: number, letters: string}} Turn */

/** What came of one piece.
 * @typedef {{turns: Turn[], output: number[], isSettled: boolean}} Piece */

/** What runs the lines of a session, as far as pieces need it.
 * @typedef {object} Ticker
 * @property {number} version of the session text
 * @property {(texts: string[]) => Promise<string[]>} look what a copy answers to these lines
 * @property {(texts: string[], console: number) => Promise<[Turn[], number[]]>} ticks gives RUN or
 * TICK lines, and drains the console: the turns and the bytes */

const SLOTS = 0o100;                     // of version 1; a RUN of version 2 finds the jobs that run
const FEW = 16;                          // so many ticks has a turn at first
const MANY_RUN = 0o100, MANY_TICK = 0o1000;      // and at most: of RUN, of TICK
const TURNS = 0o100;                     // so many turns a RUN has at most, but one more than jobs run
const LARGEST = 6;                       // so often a piece doubles

/** What a T line shows.
 * @param {string} answer
 * @returns {Turn} */
export function turnOf(answer) {
  const words = answer.split(" "), runs = words.slice(2).map(run => run.slice(-1).repeat(number(run.slice(0, -1))));
  return {slot: number(words[1]), letters: runs.join("")};
}

/** Whether all letters are among some.
 * @param {string} letters
 * @param {string} some */
function only(letters, some) { return [...letters].every(letter => some.includes(letter)); }

/** Whether these turns of RUN show that nothing goes on: all that run wait, and each was looked at,
 * because the circle is closed; or nothing runs.
 * @param {Turn[]} turns */
export function isSettled(turns) {
  return turns.every(turn => only(turn.letters, "w")) && (!turns.length || new Set(turns.map(turn => turn.slot)).size < turns.length);
}

/** The slots of the jobs that run, if none of them has a step any more: from some turn on each one waits, up to one of a job that had such a turn
 * before; or no job runs. Else null.
 * @param {Turn[]} turns
 * @returns {Set<number> | null} */
export function restingIn(turns) {
  /** @type {Set<number>} */
  const slots = new Set();
  for (let at = turns.length - 1; at >= 0 && !/[^w]/.test(turns[at].letters); at -= 1) {
    if (slots.has(turns[at].slot)) return slots;
    slots.add(turns[at].slot);
  }
  return turns.length ? null : slots;
}

/** Whether one TICK of each slot that may run shows that nothing goes on.
 * @param {Turn[]} turns */
export function isResting(turns) { return turns.every(turn => only(turn.letters, "w-")); }

/** How many ticks a piece had.
 * @param {Piece} piece */
export function ticksIn(piece) { return piece.turns.reduce((sum, turn) => sum + turn.letters.length, 0); }

/** Whether a job had a whole turn without waiting, so that the next piece may be larger.
 * @param {Piece} piece */
export function computes(piece) { return piece.turns.some(turn => only(turn.letters, "*.")); }

/** Runs the jobs of a session. What is put out at one console is taken. */
export class Runner {
  /** @param {Ticker} sitting
   * @param {number} console */
  constructor(sitting, console) {
    this.sitting = sitting;
    this.console = console;
    this.circle = 1;                     // how many jobs ran last
    this.grown = 0;                      // how often the pieces have doubled
    /** @type {number[]} */
    this.slots = [];                     // of version 1: the slots that may run
    /** @type {Map<number, string>} */
    this.last = new Map();               // slot -> the last letter of its last turn
  }

  /** Something was done to the jobs: pieces are small again, and any job may run. */
  async wake() {
    this.grown = 0;
    if (this.sitting.version !== 1) return;
    const all = Array.from({length: SLOTS}, (_, slot) => slot);
    const probes = await this.sitting.look(all.map(slot => "TICK " + octal(slot) + " 1"));
    this.slots = all.filter(slot => slot < probes.length && !probes[slot].endsWith("-"));
  }

  /** The lines of the next piece. */
  lines() {
    const ticks = FEW * 2 ** this.grown;
    if (this.sitting.version === 1) return this.slots.map(slot => "TICK " + octal(slot) + " " + octal(Math.min(ticks, MANY_TICK)));
    const turns = Math.max(this.circle + 1, Math.min(2 ** this.grown, TURNS));
    return ["RUN " + octal(turns) + " " + octal(Math.min(ticks, MANY_RUN))];
  }

  /** Runs the next piece.
   * @returns {Promise<Piece>} */
  async piece() {
    const [turns, output] = await this.sitting.ticks(this.lines(), this.console);
    const done = this.sitting.version === 2 ? isSettled(turns) : isResting(turns);
    this.circle = Math.max(new Set(turns.map(turn => turn.slot)).size, 1);
    this.last = new Map(turns.map(turn => [turn.slot, turn.letters.slice(-1)]));
    const piece = {turns, output, isSettled: done && !output.length};
    this.grown = computes(piece) ? Math.min(this.grown + 1, LARGEST) : 0;
    return piece;
  }

  /** Whether no job ran at the end of the last piece. */
  get nobody() { return [...this.last.values()].every(letter => letter === "-"); }

  /** Whether the job of a slot still ran at the end of the last piece.
   * @param {number} slot */
  runs(slot) { return (this.last.get(slot) || "-") !== "-"; }
}

/** Whether a job that waits goes on within this time, by a copy.
 * @param {Runner} runner
 * @param {number} thirtieths */
export async function movesWithin(runner, thirtieths) {
  const answers = await runner.sitting.look(["CLOCK " + octal(thirtieths), ...runner.lines()]);
  return answers.some(answer => answer.startsWith("T ") && !only(turnOf(answer).letters, "w-"));
}

/** After how many thirtieths of a second a job that waits goes on, by copies; 0 if none does within
 * the most that is asked. A guess that is right saves most of them.
 * @param {Runner} runner
 * @param {number} most
 * @param {number} guess */
export async function nextMove(runner, most, guess) {
  if (1 < guess && guess <= most && await movesWithin(runner, guess) && !await movesWithin(runner, guess - 1)) return guess;
  if (!await movesWithin(runner, most)) return 0;
  let early = 0, late = most;
  while (late - early > 1) {
    const middle = (early + late) >> 1;
    if (await movesWithin(runner, middle)) late = middle; else early = middle;
  }
  return late;
}

/** Who holds a console, as far as a try on a copy shows: each job that waits for a byte or for room
 * there was given one, and then a tick. A job that waits still does so because another job holds the
 * console; or it waits at a link, if there may be one (`isLinked`), and then nothing is known.
 * @param {Map<number, string>} consoles slot -> the console of its job
 * @param {Map<number, string>} letters slot -> what its tick was
 * @param {number} console
 * @param {number} slot
 * @param {boolean} [isLinked] */
export function holderOf(consoles, letters, console, slot, isLinked = false) {
  const here = [...letters].filter(([one]) => consoles.get(one) === octal(console));
  const barred = here.filter(([, letter]) => letter === "w").map(([one]) => one);
  const served = here.filter(([, letter]) => letter !== "w").map(([one]) => one);
  const name = "console " + octal(console);
  if (barred.length && isLinked) return name;
  if (served.length === 1 && barred.length) return name + " held by " + octal(served[0]);
  if (barred.includes(slot)) return name + " held by another";
  return served.includes(slot) ? name + " free" : name;
}
