// For the tests of tools/timesharing: the host, with a program that was found before. The first word is the path of the program, the second one is how
// many lines a session may have, or -.

import process from "node:process";

import {main} from "../commands/timesharing.js";
import {say} from "../lib/node/command.js";
import {useProgram} from "../lib/node/program.js";

const [program, most, ...words] = process.argv.slice(2);
useProgram(program);
main(words, most === "-" ? undefined : Number(most)).then(status => { process.exitCode = status; }, problem => {
  say("timesharing: " + problem.message);
  process.exitCode = 1;
});
