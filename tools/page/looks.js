// The page: what somebody finds who comes at a moment of a session and looks. The moment is the end of a copy of the session, with STATE, EXAM
// and LIST put in. No line shows which pages a job has. To find out, a copy ends at each call that may have changed that.

import {asVersion2, joined, split} from "../lib/session.js";
import {peekOf, stateOf, wordsOf} from "../lib/transcript.js";
import {Wrong, asSixbit, number, octal, value} from "../lib/words.js";
import {argumentOf, callAt} from "../lib/calls.js";
import {Moments} from "./moments.js";
import {ACCUMULATORS, GROUP, groupsOf, imageOf, namedIn, pageOf, sorted} from "./outline.js";

/** @typedef {import("../lib/transcript.js").Exchange} Exchange */
/** @typedef {import("../lib/calls.js").CallRead} CallRead */
/** @typedef {import("./moments.js").Run} Run */
/** @typedef {import("./outline.js").Peek} Peek */

/** A job that is looked at: what PEEK shows, what STATE shows, as its line too, its words by groups, and its pages.
 * @typedef {{peek: Peek, state: Record<string, string>, stateLine: string, words: Map<number, string[]>, pages: number[]}} Job */
/** What is found at a moment: the jobs by slot; and what waits at each console, typed and put out.
 * @typedef {{jobs: Map<number, Job>, queues: Record<string, [string[], string[]]>}} Look */
/** What the page shows of a job.
 * @typedef {{peek: Peek, state: Record<string, string>, stateLine: string, pages: number[], words: Record<string, string[]>, call: CallRead | null,
 *            changed: string[], instruction: string}} JobShown */
/** What the page shows at a moment.
 * @typedef {{moment: number, line: number, slot: string | null, letter: string, jobs: Record<string, JobShown>,
 *            queues: Record<string, [string[], string[]]>}} View */

const PAGES = 256, PAGE = 1024;
const ROOM = 64;                         // bytes that a console keeps
const MOST_PAGES = 64;                   // of all jobs together; of more, only the words that are named are looked at
const KEPT = 256;                        // looks that are kept

/** The moments of a session with what is found at each. */
export class Looks extends Moments {
  /** @param {Run} run
   * @param {string} name
   * @param {Exchange[]} told
   * @param {(said: string) => void} [progress] */
  constructor(run, name, told, progress) {
    super(run, name, told, progress);
    this.image = imageOf(this.told);
    this.named = namedIn(this.told);
    /** @type {Map<number, number[]>[]} */
    this.pages = [new Map()];            // for each moment: slot -> its pages
    /** @type {Map<string, Look>} */
    this.looks = new Map();              // moment and addresses -> the look
    /** @type {Map<string, CallRead | null>} */
    this.calls = new Map();              // slot and moment of its entry -> the call
    this.typed = this.typedBytes();
  }

  /** The bytes that were typed at each console and not dropped, with the line that types them, or has them as typed before. */
  typedBytes() {
    /** @type {Map<string, [number, string][]>} */
    const typed = new Map(this.consoles.map(console => [console, []]));
    for (const exchange of this.told) {
      if (!["TYPE", "IN"].includes(exchange.line.kind) || exchange.reason) continue;
      const {words, kind} = exchange.line, kept = words.length - 2 - (kind === "TYPE" ? number(wordsOf(exchange)[2]) : 0);
      const own = typed.get(octal(number(words[1]))) || [];
      for (const word of words.slice(2, 2 + kept)) own.push([exchange.line.number, octal(number(word))]);
    }
    return typed;
  }

  /** The pages of each job at a moment. A CORBLK that is decided there may change them.
   * @param {number} at */
  pagesAt(at) {
    for (let next = this.pages.length; next <= at; next += 1) {
      const moment = this.moments[next], before = this.pages[next - 1];
      /** @type {Map<number, number[]>} */
      const pages = new Map();
      for (const slot of moment.jobs.keys()) {
        pages.set(slot, (moment.made.includes(slot) ? (this.image.get(moment.line) || before).get(slot) : before.get(slot)) || []);
      }
      if (this.steppedCall(next) === asSixbit("CORBLK")) this.findPage(next, pages);
      this.pages.push(pages);
    }
    return this.pages[at];
  }

  /** Finds out, by copies that end there, which jobs have the page that a CORBLK names; of a call that cannot be read, each page.
   * @param {number} at
   * @param {Map<number, number[]>} pages */
  findPage(at, pages) {
    const slot = this.moments[at].slot || 0, call = this.callOf(at - 1, slot), own = this.look(at - 1).jobs.get(slot);
    const page = call && own ? argumentOf(call, "page", address => wordIn(own, address)) : undefined;
    const asked = page === undefined ? [...Array(PAGES).keys()] : page < PAGES ? [page] : [];
    for (const other of this.moments[at].jobs.keys()) {
      for (const one of asked) {
        const line = "EXAM " + octal(other) + " " + octal(one * PAGE + ACCUMULATORS) + " 1";
        const isThere = this.run(joined([...this.linesUpTo(at), line])).status === 0;
        pages.set(other, sorted([...(pages.get(other) || []).filter(had => had !== one), ...(isThere ? [one] : [])]));
      }
    }
  }

  /** The call in which the job of a slot is at a moment: the one at which its PC was when it was found inside first. null if it is in none,
   * or if the call cannot be read.
   * @param {number} at
   * @param {number} slot
   * @returns {CallRead | null} */
  callOf(at, slot) {
    const isInside = (/** @type {number} */ moment) => (this.moments[moment].jobs.get(slot) || {state: "USER"}).state !== "USER";
    if (!isInside(at)) return null;
    let entry = at;
    while (entry > 0 && isInside(entry - 1)) entry -= 1;
    const key = slot + " " + entry, kept = this.calls.get(key);
    if (kept !== undefined) return kept;
    const job = this.look(entry).jobs.get(slot);
    const found = job ? callAt(value(job.state.pc.slice(6)), address => wordIn(job, address)) : null;
    this.calls.set(key, found);
    return found;
  }

  /** The groups of a job's words that are looked at: its accumulators, and of its pages all, or those that are named.
   * @param {number[]} pages
   * @param {boolean} isWhole
   * @param {number[]} watch */
  groups(pages, isWhole, watch) {
    const first = ACCUMULATORS / GROUP, own = new Set([...this.named, ...watch.flatMap(address => groupsOf(address, 1))]);
    const wanted = isWhole ? pages.flatMap(page => groupsOf(page * PAGE, PAGE)) :
      sorted(own).filter(group => pages.includes(pageOf(group * GROUP)));
    return [...Array(first).keys(), ...wanted.filter(group => group >= first)];
  }

  /** What is found at a moment.
   * @param {number} at
   * @param {number[]} [watch] addresses that are looked at in addition
   * @returns {Look} */
  look(at, watch = []) {
    const key = at + " " + watch.join(" "), kept = this.looks.get(key);
    if (kept) return kept;
    const [oldest] = this.looks.keys();
    if (this.looks.size >= KEPT) this.looks.delete(oldest);
    const found = this.lookNow(at, watch);
    this.looks.set(key, found);
    return found;
  }

  /** The same. A refused line ends the session: the moment before it is looked at.
   * @param {number} asked
   * @param {number[]} watch
   * @returns {Look} */
  lookNow(asked, watch) {
    const at = this.moments[asked].refused ? asked - 1 : asked, pages = this.pagesAt(at), slots = sorted(this.moments[at].jobs.keys());
    const isWhole = [...pages.values()].reduce((sum, own) => sum + own.length, 0) <= MOST_PAGES, pagesOf = (/** @type {number} */ slot) =>
      pages.get(slot) || [];
    const groups = slots.map(slot => this.groups(pagesOf(slot), isWhole, watch)), more = " 0".repeat(ROOM / 2);
    const lines = slots.flatMap((slot, index) => ["PEEK " + octal(slot), "STATE " + octal(slot),
      ...groups[index].map(group => "EXAM " + [octal(slot), octal(group * GROUP), octal(GROUP)].join(" "))]);
    for (const console of this.consoles) lines.push("DRAIN " + console + " " + octal(ROOM), "TYPE " + console + more, "TYPE " + console + more);
    if (slots.length < this.slots) lines.push("PEEK " + octal(this.freeSlot(slots)));
    const answers = this.answers(at, lines, slots.length < this.slots);
    /** @type {Look} */
    const look = {jobs: new Map(), queues: {}};
    slots.forEach((slot, index) => {
      look.jobs.set(slot, this.jobIn(at, slot, answers.splice(0, 2 + groups[index].length), groups[index], pagesOf(slot)));
    });
    for (const console of this.consoles) look.queues[console] = this.queueIn(at, console, answers.splice(0, 3));
    return look;
  }

  /** The lines of the transcript that answer lines put in at a moment. The last one has to be refused as NOJOB, if so.
   * @param {number} at
   * @param {string[]} lines
   * @param {boolean} isLastRefused */
  answers(at, lines, isLastRefused) {
    const found = split(this.run(joined([...this.linesUpTo(at), ...lines])).transcript);
    const answers = lines.length ? found.slice(-lines.length).map(one => one.split(" ")) : [];
    if (answers.length < lines.length || isLastRefused && answers[answers.length - 1].slice(2).join(" ") !== "NOJOB") {
      throw new Wrong(this.placeOf(at) + ": this moment cannot be looked at: a job or a page is not what was expected");
    }
    return answers;
  }

  /** A job by its answers.
   * @param {number} at
   * @param {number} slot
   * @param {string[][]} answers
   * @param {number[]} groups
   * @param {number[]} pages
   * @returns {Job} */
  jobIn(at, slot, answers, groups, pages) {
    const peek = peekOf(answers[0]);
    if (JSON.stringify(peek) !== JSON.stringify(this.moments[at].jobs.get(slot))) {
      throw new Wrong(this.placeOf(at) + ": PEEK shows another frame in the session that ends there");
    }
    const words = new Map(groups.map((group, index) => [group, answers[2 + index].slice(3)]));
    return {peek, state: stateOf(answers[1]), stateLine: answers[1].slice(2).join(" "), words, pages};
  }

  /** What waits at a console: typed, and put out. Of 64 more bytes as many are dropped as wait as input.
   * @param {number} at
   * @param {string} console
   * @param {string[][]} answers
   * @returns {[string[], string[]]} */
  queueIn(at, console, answers) {
    const until = this.moments[at].line, waiting = number(answers[1][2]) + number(answers[2][2]);
    const typed = (this.typed.get(console) || []).filter(([line]) => line <= until).map(([, byte]) => byte);
    return [typed.slice(typed.length - waiting), answers[0].slice(2)];
  }

  /** What the words at some places of jobs, slot and address, are as the assembler writes them. The copy that is asked has version 2 of the
   * session text, which has LIST.
   * @param {number} at
   * @param {[number, number][]} places */
  listed(at, places) {
    const own = this.linesUpTo(this.moments[at].refused ? at - 1 : at);
    const lines = [...asVersion2(own), ...places.map(([slot, address]) => ["LIST", octal(slot), octal(address), "1"].join(" "))];
    const found = split(this.run(joined(lines)).transcript);
    return found.slice(-places.length).map(one => one.startsWith("L ") ? one.split(" ").slice(3).join(" ") : "");
  }

  /** What the page shows at a moment, with the addresses whose words changed there, and the instruction at each PC.
   * @param {number} at
   * @param {number[]} watch
   * @returns {View} */
  view(at, watch) {
    const {line, slot: ticked, letter} = this.moments[at], look = this.look(at, watch), before = at ? this.look(at - 1, watch) : null;
    /** @type {[number, number][]} */
    const places = [];
    for (const [slot, job] of look.jobs) {
      const pc = value(job.state.pc.slice(6));
      if (wordIn(job, pc) !== undefined || job.pages.includes(pageOf(pc))) places.push([slot, pc]);
    }
    const listed = places.length ? this.listed(at, places) : [];
    /** @type {Record<string, JobShown>} */
    const jobs = {};
    for (const [slot, {peek, state, stateLine, pages, words}] of look.jobs) {
      const place = places.findIndex(([own]) => own === slot), was = before && before.jobs.get(slot);
      jobs[octal(slot)] = {peek, state, stateLine, pages, words: Object.fromEntries(words), call: this.callOf(at, slot),
                           changed: was ? changedWords(was.words, words) : [], instruction: place < 0 ? "" : listed[place]};
    }
    return {moment: at, line, slot: ticked === null ? null : octal(ticked), letter, jobs, queues: look.queues};
  }
}

/** The word of a job at an address, undefined if it was not looked at.
 * @param {Job} job
 * @param {number} address */
function wordIn(job, address) { return (job.words.get(Math.floor(address / GROUP)) || [])[address % GROUP]; }

/** The addresses whose words are other ones than before; none if other words were looked at.
 * @param {Map<number, string[]>} before
 * @param {Map<number, string[]>} now */
function changedWords(before, now) {
  if (before.size !== now.size || [...now.keys()].some(group => !before.has(group))) return [];
  return [...now].flatMap(([group, words]) => words.flatMap((word, at) =>
    word === (before.get(group) || [])[at] ? [] : [octal(group * GROUP + at)]));
}
