// The page: the worker that has the proved program, as the page asks it. One question is answered after the other; what takes long is shown
// with its time, and can be stopped.

import {Wrong} from "../lib/words.js";
import {Stopped, byId, itemOf} from "./dom.js";
import {unpacked} from "./packing.js";

const PATIENCE = 250;                    // milliseconds, before a question is shown to take its time
const BEGIN = '\n$("page/answers.js").serve(self);';      // what a worker does with the scripts of the page

/** The module, and from what it was built. */
export const built = itemOf("module");

/** A question that waits for its answer.
 * @typedef {{resolve: (answer: *) => void, reject: (problem: Error) => void, words: string, since: number, more: string}} Waiting */

/** The program in its worker. */
export class Program {
  constructor() {
    /** @type {Map<number, Waiting>} */
    this.waiting = new Map();
    this.asked = 0;
    this.bytes = unpacked(built.bytes);
    this.worker = this.begin();
    this.ready = this.opened();
    setInterval(() => this.showBusy(), 100);
  }

  /** A new worker. */
  begin() {
    const url = URL.createObjectURL(new Blob([byId("core").textContent, BEGIN], {type: "text/javascript"}));
    const worker = new Worker(url);
    worker.onmessage = ({data}) => this.answered(data);
    worker.onerror = event => this.fail(new Error("the worker failed: " + event.message));
    return worker;
  }

  /** Gives the worker a new instance of the module. */
  async opened() { return this.post("open", {bytes: await this.bytes}, "The program is prepared"); }

  /** Asks the worker.
   * @param {string} ask
   * @param {object} data
   * @param {string} words
   * @returns {Promise<*>} */
  post(ask, data, words) {
    this.asked += 1;
    const id = this.asked;
    return new Promise((resolve, reject) => {
      this.waiting.set(id, {resolve, reject, words, since: performance.now(), more: ""});
      this.worker.postMessage({id, ask, ...data});
    });
  }

  /** Asks the worker for something; `words` say what takes its time.
   * @param {string} what
   * @param {object} data
   * @param {string} words */
  async ask(what, data, words) {
    await this.ready;
    return this.post(what, data, words);
  }

  /** Takes an answer, or how far a question is.
   * @param {*} said */
  answered({id, answer, wrong, isTrap, progress}) {
    const one = this.waiting.get(id);
    if (!one) return;
    if (progress !== undefined) {
      one.more = progress;
      return;
    }
    this.waiting.delete(id);
    if (wrong === undefined) one.resolve(answer);
    else one.reject(isTrap ? new Error(wrong) : new Wrong(wrong));
  }

  /** Nothing is answered any more.
   * @param {Error} problem */
  fail(problem) {
    const waiting = [...this.waiting.values()];
    this.waiting.clear();
    waiting.forEach(one => one.reject(problem));
  }

  /** Ends what runs, and begins anew. */
  stop() {
    this.worker.terminate();
    this.fail(new Stopped("Stopped."));
    this.worker = this.begin();
    this.ready = this.opened();
  }

  /** What runs, for how long, and how far it is. */
  showBusy() {
    const [first] = this.waiting.values(), since = first ? performance.now() - first.since : 0;
    byId("busy").hidden = since < PATIENCE;
    if (byId("busy").hidden) return;
    byId("busy-words").textContent = first.words + ": " + (since / 1000).toFixed(1) + " s" + (first.more && ", " + first.more);
  }
}
