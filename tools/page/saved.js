// The page: the system at the moment that is shown, as a text: the state part that the program saves. It can be kept, and a new session can begin
// with it.

import {split} from "../lib/session.js";
import {Wrong, countOf} from "../lib/words.js";
import {alertOf, byId, copy, on, saveFile, tried} from "./dom.js";
import {setSession, writing} from "./editor.js";
import {beginningOf, fields} from "./field.js";
import {asked} from "./keeping.js";
import {moments} from "./player.js";
import {page, program} from "./state.js";

/** What was saved last, and a name for it. */
const saved = {name: "", text: ""};
const MADE = 1;                          // the moment at which the system is made

/** Saves the system at the moment at which the reader is. */
async function save() {
  const {shown, moment} = page, said = byId("where").textContent;
  if (!shown || !moments().length) throw new Wrong("Nothing is stepped through, so there is no moment to save.");
  const {text} = await program.ask("save", {at: moment}, "Saving this moment");
  Object.assign(saved, {name: shown.name.replace(/(-saved)?(\.its)?$/, "-saved.its"), text});
  return said;
}

/** Shows what is saved. */
async function show() {
  const said = await save();
  alertOf(null);
  byId("saved-said").textContent = countOf(split(saved.text).length, "line") + " make the system of this moment: " + said;
  byId("saved-text").textContent = beginningOf(saved.text);
  byId("saved").hidden = false;
}

/** Begins a session with what is saved, and shows it there. Its reader goes on in the next line. */
async function goOn() {
  await save();
  asked("text", "the system of this moment", () => {
    setSession(saved.name, saved.text);
    page.moment = MADE;
    writing(true);
    fields.text.select(split(saved.text).length + 1);
  });
}

/** Lets the buttons act. */
export function wireSaved() {
  on("save-here", "click", () => tried(show));
  on("go-on-here", "click", () => tried(goOn));
  on("saved-copy", "click", () => tried(() => copy(saved.text, "The system is copied.")));
  on("saved-file", "click", () => saveFile(saved.name, saved.text));
  on("saved-close", "click", () => { byId("saved").hidden = true; });
}
