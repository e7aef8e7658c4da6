// The page: the Verify tab: whether a transcript is one of a session, and if not, why; and the other commands.

import {decoded} from "../lib/bytes.js";
import {atLine} from "../lib/session.js";
import {countOf} from "../lib/words.js";
import {byId, element, on, tried} from "./dom.js";
import {STATUS} from "../lib/engine.js";
import {beginningOf, fields} from "./field.js";
import {asked, give, isOwn, replace} from "./keeping.js";
import {exampleOf, program} from "./state.js";
import {texts} from "./texts.js";

/** What was verified last is stale: a text was changed. */
function stale() {
  byId("verdict").textContent = "";
  byId("verdict").className = "result";
  byId("reasons").hidden = true;
  byId("command-output").hidden = true;
}

/** Lines around the one that is not licensed, which has a colour of its own.
 * @param {string[]} lines
 * @param {string} kind
 * @returns {Node[]} */
function marked(lines, kind) {
  return (lines.length ? lines : ["  (nothing)"]).map(one => element("span", one.startsWith(">") ? kind : "", one + "\n"));
}

/** Verifies, and says what the answer means; of a line that is not licensed, what is found there, what would be, and by which rule. */
async function verify() {
  const box = byId("verdict"), texts = {session: fields["verify-session"].text, transcript: fields["verify-transcript"].text};
  const {answer, line, reason, why, found, beside} = await program.ask("verify", texts, "Verifying");
  stale();
  box.classList.toggle("bad", answer !== "YES");
  if (answer === "YES") box.textContent = "YES: this is a transcript of the session, of " + countOf(line, "line") + ".";
  else if (answer === "?") box.textContent = "L" + atLine(line).slice(1) + " of the session is refused as " + reason + ".";
  else {
    box.textContent = "NO: " + atLine(line) + " of the transcript is not licensed there.";
    byId("why").textContent = why.slice(1).join("\n");
    byId("beside").replaceChildren("The transcript has there:\n", ...marked(found, "wrong"),
                                   "This program writes there:\n", ...marked(beside, "right"));
    byId("reasons").hidden = false;
    fields["verify-transcript"].select(line);
    box.scrollIntoView({block: "nearest"});          // the line is selected below; what is said of it stays in sight
  }
}

/** Shows what a command writes.
 * @param {string[]} words
 * @param {string} input
 * @param {string} what */
async function showCommand(words, input, what) {
  const {status, output} = await program.ask("command", {words, input}, what);
  byId("command-output").textContent = beginningOf(decoded(output)) + "status " + status + (STATUS[status] ? ": " + STATUS[status] : "");
  byId("command-output").hidden = false;
}

/** Shows texts in the two fields: a session, and a transcript that the page can make again.
 * @param {string} name
 * @param {string} session
 * @param {string} transcript */
function put(name, session, transcript) {
  replace("verify-session", name, session);
  give("verify-transcript", name.replace(/^.*\//, "").replace(/\.its$/, ".out"), transcript);
  stale();
}

/** Takes the session of the first tab. */
function takeSession() {
  replace("verify-session", "session.its", fields.text.text);
  stale();
}

/** Takes a session, and the transcript that the program writes for it.
 * @param {string} name
 * @param {string} session */
async function putOwn(name, session) {
  const {output} = await program.ask("command", {words: ["run"], input: session}, "Running the session");
  put(name, session, decoded(output));
}

/** Judges a session with its transcript. They replace the texts of the tab.
 * @param {string} name
 * @param {string} session
 * @param {string} transcript */
export function judge(name, session, transcript) {
  byId("verify-examples").value = byId("verify-about").textContent = "";
  put(name, session, transcript);
  tried(verify);
}

/** Takes an example: a session with the transcript of this program, or that of another monitor.
 * @param {string} name */
function take(name) {
  const other = texts.others.find(one => one.name === name);
  byId("verify-about").textContent = other ? other.about : "";
  if (!other) tried(() => putOwn(name, exampleOf(name)));
  else {
    put(other.session, exampleOf(other.session), other.transcript);
    tried(verify);
  }
}

/** The tab is shown: it has the session of the first tab, if it has none. */
export function beginVerify() {
  if (!fields["verify-session"].text) fields["verify-session"].text = fields.text.text;
}

/** The list of the examples, those of other monitors first.
 * @param {string[]} sessions */
function fillExamples(sessions) {
  const menu = byId("verify-examples"), group = (/** @type {string} */ label, /** @type {string[]} */ names) => {
    const list = document.createElement("optgroup");
    list.label = label;
    list.append(...names.map(name => new Option(name.replace(/\.its$/, ""), name)));
    return names.length ? [list] : [];
  };
  menu.replaceChildren(new Option("(own)", ""), ...group("Monitors that are wrong", texts.others.map(one => one.name)),
                       ...group("This program", sessions));
}

/** Lets the tab act.
 * @param {string[]} sessions the names of the examples */
export function wireVerify(sessions) {
  fillExamples(sessions);
  on("verify-examples", "change", ({target}) => {
    const own = isOwn("verify-session") ? "verify-session" : "verify-transcript";
    if (target.value) asked(own, "an example", () => take(target.value), () => { target.value = ""; });
  });
  on("verify-take", "click", takeSession);
  on("verify-own", "click", () => tried(() => putOwn("session.its", fields["verify-session"].text)));
  on("verify", "click", () => tried(verify));
  for (const id of ["verify-session", "verify-transcript"]) {
    on(id, "input", () => {
      byId("verify-examples").value = "";
      stale();
    });
  }
  on("check", "click", () => tried(() => showCommand(["check"], fields["verify-session"].text, "Checking the session")));
  on("generate", "click", () => tried(() => showCommand(["gen", byId("rounds").value.trim()], "", "Running the generated session")));
}
