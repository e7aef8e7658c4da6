// For the commands, in node: a process that grades files. Its words are the folder of the task, and `public` if only the public checks count. Each
// message is a file, and is answered by its report.

import process from "node:process";

import {reportOf, taskOf} from "./tasks.js";

const [folder, which] = process.argv.slice(2), task = taskOf(folder, which === "public");

process.on("message", file => {
  if (process.send) process.send(reportOf(task, file));
});
