// For tests by node: the program in the module of the page docs/its.html, and sessions that it runs.

import {readFileSync} from "node:fs";
import path from "node:path";
import {gunzipSync} from "node:zlib";

import {moduleInPage, valueInPage} from "../lib/node/page.js";
import {TOP} from "../lib/node/program.js";
import {Engine} from "../lib/engine.js";
import {runSession} from "../page/running.js";

export const engine = new Engine(moduleInPage());

/** The text of a file of the repository.
 * @param {string} name */
export function textOf(name, encoding = /** @type {BufferEncoding} */ ("latin1")) { return readFileSync(path.join(TOP, name), encoding); }

/** The texts that the page has: the examples, the tasks, and the transcripts of other monitors. */
export function textsInPage() { return JSON.parse(gunzipSync(Buffer.from(valueInPage("texts"), "base64")).toString()); }

/** The lines of a session with the answers of the program.
 * @param {string} session */
export function told(session) { return runSession(engine, "the session", session).told; }
