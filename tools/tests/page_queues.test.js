// What the page shows of the bytes that wait at a console: tools/page/looks.js. The program is that in the page.

import assert from "node:assert";
import {test} from "node:test";

import {Looks} from "../page/looks.js";
import {engine, textOf, told} from "./page.js";

const LOADED = "LOAD U J 0\n100/ 254000000100\nGO 100\n";

/** The lines of a session, and after each of its moments what waits at console 0, as input and as output.
 * @param {string} session
 * @returns {[number, string, string][]} */
function queuesOf(session) {
  const looks = new Looks((/** @type {string} */ text) => engine.run(text), "the session", told(session));
  return looks.moments.map((/** @type {{line: number}} */ {line}, /** @type {number} */ at) => {
    const [typed, put] = looks.look(at).queues["0"];
    return [line, typed.join(" "), put.join(" ")];
  });
}

test("Bytes that nobody takes wait in their order, as far as there is room", () => {
  const many = Array.from({length: 30}, (_, at) => (0o100 + at).toString(8)).join(" ");
  assert.deepStrictEqual(queuesOf(LOADED + "TYPE 0 141 142\nCLOCK 1\nTYPE 0 143\n"),
                         [[0, "", ""], [3, "", ""], [4, "141 142", ""], [5, "141 142", ""], [6, "141 142 143", ""]]);
  assert.deepStrictEqual(queuesOf(LOADED + ("TYPE 0 " + many + "\n").repeat(2) + "TYPE 0 1 2 3 4 5 6 7\n").slice(-1), [[6, many + " " + many + " 1 2 3 4", ""]]);
});

test("Bytes that a job takes and puts out", () => {
  const queues = queuesOf(textOf("sessions/echo.its").replace(/^END$/m, "TICK 0 100\nEND")).map(([, typed, put]) => typed + " | " + put);
  const found = queues.filter((one, at) => one !== queues[at - 1]);
  assert.deepStrictEqual(found.slice(0, 9), [" | ", "141 142 143 | ", "142 143 | ", "142 143 | 141", "142 143 | ", "143 | ", "143 | 142", " | 142", " | 142 143"]);
});
