// For the checks of developers: the lines of a session with the lines of its transcript that answer each, as JSON. The words are the two files.

import {runsOf, toldOf, unrolled} from "../transcript.js";
import {command, textOf, write} from "./command.js";

/** Reads two files, and writes what fits: of each line its number, text, words, kind, answer, why it is refused, and the letters of its ticks.
 * @param {string[]} given */
export function main([session, transcript]) {
  const told = toldOf(session, textOf(session), textOf(transcript), transcript);
  write(JSON.stringify(told.map(exchange => ({
    number: exchange.line.number, text: exchange.line.text, words: exchange.line.words, kind: exchange.line.kind, answer: exchange.answer,
    reason: exchange.reason, letters: exchange.reason ? [] : unrolled([exchange]).filter(({line}) => line.kind === "TICK").map(one =>
      runsOf(one).map(([count, letter]) => letter.repeat(count)).join(""))}))));
  return 0;
}

command("exchanges", main, "/node/exchanges.js");
