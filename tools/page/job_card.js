// The page: the jobs and the consoles at a moment. A job has a card, with what PEEK shows, and what somebody would find who looks.

import {STATES, bits, callName, countOf, octal, sixbit, value} from "../lib/words.js";
import {atLine} from "../lib/session.js";
import {byId, element} from "./dom.js";
import {bytesText, jobNotes, meaning, pcIn, pcPlace, stateText, symbolAt, symbolOf, verdict, wordAt} from "./job_words.js";
import {act, page} from "./state.js";

/** @typedef {import("./looks.js").JobShown} JobShown */
/** @typedef {import("./outline.js").Peek} Peek */

const CHANGED = 8;                       // so many changed words are listed
const MANY = 4;                          // if there are more jobs, the one that is ticked and those that are looked at come first
const RAW = "Inside, as PEEK shows it", FOUND = "Found by somebody who looks";

/** The parts of a card.
 * @typedef {Record<string, *>} Card */

/** @type {Map<string, Card>} */
const cards = new Map();                 // slot -> its card

/** A word of 12 digits, its halves a little apart.
 * @param {string} word
 * @param {string} kind */
function wordElement(word, kind) {
  const digits = word.padStart(12, "0"), halves = [digits.slice(0, 6), digits.slice(6)];
  return element("span", ("word " + kind).trim(), ...halves.map(half => element("span", "", half)));
}

/** A cell with a word: what kind of word it is, and what it means.
 * @param {string} word
 * @param {string} kind
 * @param {string} means */
function wordCell(word, kind, means) {
  const cell = element("td", "", wordElement(word, kind));
  if (kind) cell.append(" ", element("span", "tag " + kind, kind));
  if (means) cell.append(" ", element("span", "means", means));
  return cell;
}

/** The card of a slot, made once so that its button and its field keep the focus.
 * @param {string} slot
 * @returns {Card} */
function cardOf(slot) {
  const kept = cards.get(slot);
  if (kept) return kept;
  /** @type {Card} */
  const card = {
    title: element("h3"), button: element("button", "look", "Look here"), frame: element("div", "frame"), verdict: element("p", "verdict"),
    head: element("tr"), body: element("tbody"), registers: element("p", "registers"), ask: element("form", "ask"), field: element("input"),
    said: element("output")};
  card.table = element("table", "", element("thead", "", card.head), card.body);
  card.button.type = "button";
  card.button.addEventListener("click", () => {
    if (!page.looking.delete(slot)) page.looking.add(slot);
    act.update();
  });
  fillForm(card, slot);
  card.verdict.setAttribute("aria-live", "polite");
  card.whole = element("article", "job", element("header", "", card.title, card.button), card.frame, card.verdict, card.table,
                       card.registers, card.ask);
  card.whole.dataset.slot = slot;
  cards.set(slot, card);
  const after = [...cards.keys()].filter(other => value(other) > value(slot)).sort((one, other) => value(one) - value(other))[0];
  byId("jobs").insertBefore(card.whole, after ? cardOf(after).whole : null);
  return card;
}

/** The form that asks for the address of another word.
 * @param {Card} card
 * @param {string} slot */
function fillForm(card, slot) {
  const label = element("label", "", "Another word, at address"), button = element("button", "", "Show it");
  label.htmlFor = card.field.id = "address-" + slot;
  Object.assign(card.field, {type: "text", inputMode: "numeric", autocomplete: "off", maxLength: 6});
  button.type = "submit";
  card.said.setAttribute("aria-live", "polite");
  card.ask.append(label, card.field, button, card.said);
  card.ask.addEventListener("submit", (/** @type {Event} */ event) => {
    event.preventDefault();
    const typed = card.field.value.trim();
    card.said.textContent = /^[0-7]{1,6}$/.test(typed) ? "" : "An address is 1 to 6 octal digits.";
    if (card.said.textContent) return;
    if (!page.watched.includes(octal(value(typed)))) page.watched.push(octal(value(typed)));
    card.field.value = "";
    act.update();
  });
}

/** Shows a job: how far it is inside a call, and the words of its call.
 * @param {string} slot
 * @param {JobShown} job
 * @param {boolean} isTicked */
function showJob(slot, job, isTicked) {
  const card = cardOf(slot), looks = page.looking.has(slot), title = "Slot " + slot + "  " + sixbit(job.state.user) + " " + sixbit(job.state.job);
  card.whole.hidden = false;
  card.whole.classList.toggle("ticked", isTicked);
  card.whole.classList.toggle("looked", looks);
  card.title.replaceChildren(title + " ", element("span", "note", jobNotes(job.state)));
  card.button.setAttribute("aria-pressed", looks);
  card.frame.replaceChildren(...frameOf(slot, job));
  const rows = rowsOf(slot, job, looks);
  card.table.hidden = rows.length === 0;
  card.head.replaceChildren(element("th", "", "Word"), element("th", "", RAW), ...(looks ? [element("th", "", FOUND)] : []));
  card.body.replaceChildren(...rows);
  card.verdict.textContent = looks ? verdict(job, Boolean(card.body.querySelector(".restored"))) : "";
  card.registers.textContent = looks ? stateText(job.state) : "";
  card.ask.hidden = !looks;
}

/** Where the job is in its call, in words, and the place of its program.
 * @param {string} slot
 * @param {JobShown} job */
function frameOf(slot, job) {
  const {peek, call} = job, place = placeElement(slot, job);
  if (peek.state === "USER") return [element("span", "where-in user", peek.state), STATES.USER, ...place];
  const name = (peek.call === "-" ? "a call" : callName(peek.call)) + (call ? " at " + call.at : "");
  const immediate = call && peek.call !== "-" ? call.arguments.filter(argument => argument.address === undefined) : [];
  const boxes = element("span", "steps", "■".repeat(peek.left));
  boxes.setAttribute("aria-hidden", "true");
  return [element("span", "where-in", peek.state), element("strong", "", name),
          element("span", "note", immediate.map(one => one.role + " " + one.value).join(", ")),
          element("span", "", countOf(peek.left, "step") + " from user mode ", boxes), element("span", "note", STATES[peek.state]), ...place];
}

/** The assembly text of the job in a slot, if one is known: that of the last LOAD that made a job there.
 * @param {string} slot */
function sourceOf(slot) {
  const {shown, now} = page;
  return shown && now ? shown.sources.find(source => source.slot === slot && source.line <= now.line && now.line < source.until) : undefined;
}

/** The instruction at the place of a job: at its call, or at the PC that STATE shows; its symbol, and its line of the assembly text.
 * @param {string} slot
 * @param {JobShown} job */
function placeElement(slot, job) {
  const pc = pcIn(job), at = job.call ? value(job.call.at) : pc, isPc = at === pc, source = sourceOf(slot);
  if (job.peek.state !== "USER" && !job.call) return [];
  const symbol = symbolAt(source, at) || isPc && symbolOf(job.state), found = source && source.places.filter(([place]) => place === at).pop();
  const words = [octal(at) + (symbol ? " (" + symbol + ")" : ""), isPc && job.instruction].filter(Boolean).join(": ");
  const place = element("span", "place-in", words);
  if (source && found) {
    place.append(" ", element("span", "note", atLine(found[1]) + " of its text: "), element("code", "", source.lines[found[1] - 1].trim()));
  }
  return [place];
}

/** The rows of a job's table.
 * @param {string} slot
 * @param {JobShown} job
 * @param {boolean} looks */
function rowsOf(slot, job, looks) {
  const {peek, call} = job, seen = new Set();
  /** @type {HTMLElement[]} */
  const rows = [];
  const row = (/** @type {string} */ role, /** @type {string} */ address, /** @type {string} */ raw) => {
    seen.add(address);
    if (looks || raw !== "-") rows.push(rowOf(slot, job, role, address, raw, looks));
  };
  if (looks) rows.push(pcRow(slot, job));
  for (const {role, address} of call ? call.arguments : []) {
    if (address !== undefined) row(role, address, role === "pointer" || role === "time" ? peek.a : role === "count" ? peek.b : "-");
  }
  if (peek.held !== "-") rows.push(heldRow(peek, looks));
  const pointer = call && call.arguments.find(({role, address}) => role === "pointer" && address !== undefined);
  const target = pointer && wordAt(job, value(pointer.address || "")).word;
  if (target) row("byte's word", octal(bits(target, 18, 35)), "-");
  for (const address of page.watched) if (!seen.has(address)) row("watched", address, "-");
  for (const address of job.changed.filter(one => !seen.has(one)).slice(0, CHANGED)) row("changed at this moment", address, "-");
  return rows;
}

/** The row of a word: what PEEK shows, and what somebody who looks finds.
 * @param {string} slot
 * @param {JobShown} job
 * @param {string} role
 * @param {string} address
 * @param {string} raw
 * @param {boolean} looks */
function rowOf(slot, job, role, address, raw, looks) {
  const found = wordAt(job, value(address)), {word} = found, isStale = raw !== "-" && word !== undefined && value(raw) !== value(word);
  const symbol = symbolAt(sourceOf(slot), value(address));
  const head = element("th", "", role + " ", element("span", "place", "word " + address + (symbol ? " (" + symbol + ")" : "")));
  head.scope = "row";
  if (role === "watched") head.append(dropButton(slot, address));
  const row = element("tr", "", head);
  Object.assign(row.dataset, {address, role});
  row.append(raw === "-" ? element("td", "place", "not shown") : wordCell(raw, looks && isStale ? "stale" : "", meaning(role, octal(value(raw)))));
  if (looks) row.append(word === undefined ? element("td", "place", found.why) : wordCell(word, isStale ? "restored" : "", meaning(role, word)));
  return row;
}

/** The button that takes a watched word away.
 * @param {string} slot
 * @param {string} address */
function dropButton(slot, address) {
  const button = element("button", "drop", "drop");
  button.type = "button";
  button.setAttribute("aria-label", "Show word " + address + " no more");
  button.addEventListener("click", () => {
    page.watched.splice(page.watched.indexOf(address), 1);
    act.update();
    cardOf(slot).field.focus();
  });
  return button;
}

/** The row of the PC.
 * @param {string} slot
 * @param {JobShown} job */
function pcRow(slot, job) {
  const pc = octal(pcIn(job)), head = element("th", "", "PC"), symbol = symbolOf(job.state) || symbolAt(sourceOf(slot), pcIn(job));
  head.scope = "row";
  const means = [pcPlace(job), symbol, job.instruction].filter(Boolean).join("; ");
  const found = element("td", "", element("span", "word", pc.padStart(6, "0")));
  if (means) found.append(" ", element("span", "means", means));
  return element("tr", "", head, element("td", "place", job.peek.state === "USER" ? "not shown" : "inside the call"), found);
}

/** The row of what a job holds.
 * @param {Peek} peek
 * @param {boolean} looks */
function heldRow(peek, looks) {
  const word = octal(value(peek.held)), head = element("th", "", value(word) < 128 ? "held byte" : "held word");
  head.scope = "row";
  const row = element("tr", "", head, wordCell(word, "", meaning("byte", word)));
  row.dataset.held = word;
  if (looks) row.append(element("td", "place", "stored in the byte's word"));
  return row;
}

/** Shows the jobs and the consoles of the moment that is drawn. */
export function showJobs() {
  const {now} = page, slots = now ? Object.keys(now.jobs) : [];
  for (const card of cards.values()) card.whole.hidden = true;
  for (const slot of slots) if (now) showJob(slot, now.jobs[slot], now.slot === slot);
  byId("jobs").className = slots.length > MANY ? "many" : "";
  byId("none").hidden = slots.length > 0;
  const queues = now ? now.queues : {}, boxes = Object.keys(queues).sort().map(console => {
    const list = element("dl", "console", element("h3", "", "Console " + console));
    queues[console].forEach((bytes, out) => {
      list.append(element("dt", "", out ? "put out, waits" : "typed, waits"), element("dd", "", bytesText(bytes)));
    });
    list.dataset.console = console;
    return list;
  });
  byId("consoles").replaceChildren(...boxes);
}
