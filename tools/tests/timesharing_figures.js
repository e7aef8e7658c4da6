// Measures tools/timesharing: eight people at line editors, one key after the other. Writes the keys a second, and the times from a key to its echo in
// milliseconds: the median, nine of ten, and the greatest; and the processor time of a key in milliseconds, of the host and of its program. The words are
// seconds, how many keys a second each person types (0: the next at once), and the program.

import process from "node:process";

import {useProgram} from "../lib/node/program.js";
import {Host, Person, jobsOf, pause} from "./people.js";
import {folderOf} from "./shared.js";

const ALL = [0, 1, 2, 3, 4, 5, 6, 7], [seconds, perSecond] = process.argv.slice(2).map(Number);
if (process.argv[4]) useProgram(process.argv[4]);
const host = await new Host(folderOf({"start.its": jobsOf("sessions/edit.its", ALL)}), "--rounds", "100000").start(), times = [];
const before = await host.seconds(), end = performance.now() + 1000 * seconds;
await Promise.all(ALL.map(async console => {
  const person = await Person.at(host.ports[console]);
  for (let at = 0; performance.now() < end; at += 1) {
    const key = String.fromCharCode(97 + at % 26), begin = performance.now();
    if (at % 50 === 49) await person.asks("\r", /\r\n.*\r\n/);
    else await person.asks(key, key);
    times.push(performance.now() - begin);
    if (perSecond) await pause(1000 / perSecond * (0.5 + (at * 7 + console * 3) % 10 / 10));
  }
  await person.leave();
}));
times.sort((one, other) => one - other);
const used = 1000 * (await host.seconds() - before) / times.length;
process.stdout.write([times.length / seconds, times[times.length >> 1], times[Math.floor(0.9 * times.length)], times[times.length - 1], used].map(one => one.toFixed(1)).join(" ") + "\n");
await host.stop();
process.exit();
