// For tests of parts of the page by node: a substitute for the document and for the worker. Modules of
// the page are imported after this one, and after the values and texts are given that the page is packed with.

import {gzipSync} from "node:zlib";

/** The values that the page is packed with, by their names.
 * @type {Record<string, string>} */
export const GIVEN = {module: JSON.stringify({bytes: gzipSync("module").toString("base64")})};

/** An element that keeps what is put into it, and calls those who listen. */
class Fake {
  /** @param {string} id */
  constructor(id = "") {
    /** @type {Record<string, ((event: any) => void)[]>} */
    this.listening = {};
    Object.assign(this, {id, value: "", textContent: GIVEN[id] || "", hidden: false, disabled: false, checked: false, title: "", scrollTop: 0,
                         scrollHeight: 0, clientHeight: 400, clientWidth: 400, selectionStart: 0, selectionEnd: 0, style: {}, dataset: {}});
  }

  get classList() { return {toggle() {}, add() {}, remove() {}, contains() { return false; }}; }
  get parentElement() { return new Fake(); }
  /** @param {string} kind
   * @param {(event: any) => void} act */
  addEventListener(kind, act) { (this.listening[kind] = this.listening[kind] || []).push(act); }
  /** @param {string} kind
   * @param {object} event */
  happens(kind, event) { for (const act of this.listening[kind] || []) act({target: this, preventDefault() {}, ...event}); }
  /** @param {...any} options */
  replaceChildren(...options) { if (options.length && options[0].value) /** @type {any} */ (this).value = options[0].value; }
  /** @param {number} start
   * @param {number} end */
  setSelectionRange(start, end) { Object.assign(this, {selectionStart: start, selectionEnd: end}); }
  append() {}
  prepend() {}
  before() {}
  after() {}
  remove() {}
  focus() {}
  scrollIntoView() {}
  setAttribute() {}
  removeAttribute() {}
  getAttribute() { return null; }
  querySelector() { return new Fake(); }
  querySelectorAll() { return []; }
  dispatchEvent() { return true; }
  closest() { return null; }
}

/** The elements that were asked for, by their ids.
 * @type {Map<string, any>} */
export const elements = new Map();

/** @param {string} id
 * @returns {any} */
export function byId(id) {
  if (!elements.has(id)) elements.set(id, new Fake(id));
  return elements.get(id);
}

/** The workers that are there, and what they have been asked.
 * @type {any[]} */
export const workers = [], posted = /** @type {any[]} */ ([]);
const {setInterval: interval} = globalThis;
Object.assign(globalThis, {
  document: Object.assign(new Fake("document"), {getElementById: byId, createElement: () => new Fake(), createElementNS: () => new Fake(),
                                                 body: new Fake(), documentElement: new Fake(), activeElement: null}),
  window: Object.assign(new Fake("window"), {setTimeout, clearTimeout, location: {hash: ""}, matchMedia: () => new Fake()}),
  setInterval: (/** @type {() => void} */ act, /** @type {number} */ time) => /** @type {any} */ (interval(act, time)).unref(),
  ResizeObserver: class { observe() {} },
  Worker: class {
    constructor() { workers.push(this); }
    /** @param {any} data */
    postMessage(data) { posted.push(data); }
    terminate() { workers.splice(workers.indexOf(this), 1); }
  },
  Option: class { constructor(/** @type {string} */ text, /** @type {string} */ value) { Object.assign(this, {text, value}); } }});

/** Lets what waits go on. */
export function settle() { return new Promise(done => setTimeout(done, 1)); }
