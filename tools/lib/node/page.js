// For the commands, in node: the page docs/its.html as it is stored, and the same with a session in it.

import {readFileSync} from "node:fs";
import path from "node:path";
import {gunzipSync} from "node:zlib";

import {Wrong, octal} from "../words.js";
import {systemError} from "./command.js";
import {TOP} from "./program.js";

const PAGE = path.join("docs", "its.html");

/** A value of the page, by its name, as it is written there.
 * @param {string} name
 * @param {string} value */
function item(name, value) { return '<script type="application/json" id="' + name + '">\n' + value + "\n</script>"; }

/** The page that the repository has. */
export function storedPage() {
  try {
    return readFileSync(path.join(TOP, PAGE), "utf8");
  } catch (problem) {
    throw new Wrong(systemError(PAGE, problem).message + " (tools/web makes it)");
  }
}

/** A value that the stored page has, by its name.
 * @param {string} name */
export function valueInPage(name) {
  const text = storedPage(), [before, after] = item(name, "\n").split("\n\n\n"), start = text.indexOf(before);
  if (start < 0) throw new Wrong(PAGE + " is no page that tools/web made");
  const from = start + before.length + 1;
  return JSON.parse(text.slice(from, text.indexOf("\n" + after, from)));
}

/** The WebAssembly module of the page. */
export function moduleInPage() { return gunzipSync(Buffer.from(valueInPage("module").bytes, "base64")); }

/** The page with a session, which it opens. Of each job the words at `watch` are shown, too.
 * @param {string} name
 * @param {string} session
 * @param {number[]} watch */
export function packedPage(name, session, watch) {
  const text = storedPage(), empty = item("packed", "null");
  if (!text.includes(empty)) throw new Wrong(PAGE + " has no place for a session");
  const ascii = JSON.stringify({name, text: session, watch: watch.map(octal)}).replace(/[^ -~]|</g, one =>
    "\\u" + one.charCodeAt(0).toString(16).padStart(4, "0"));
  return text.replace(empty, () => item("packed", ascii));
}
