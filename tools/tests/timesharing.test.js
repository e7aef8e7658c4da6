// The host of a system, tools/timesharing, as several people use it over sockets; killed hosts, hostile terminals. With ITS_LONG=1 eight
// people type for a minute, and the host is killed 200 times.

import assert from "node:assert";
import {spawnSync} from "node:child_process";
import fs from "node:fs";
import path from "node:path";
import {test} from "node:test";

import {atHand} from "../lib/node/program.js";
import {visible} from "../lib/keys.js";
import {wholeOf} from "../lib/resuming.js";
import {split} from "../lib/session.js";
import {withoutEnd} from "../lib/sitting.js";
import {number} from "../lib/words.js";
import {system} from "./evening.js";
import {Host, Person, jobsOf, pause} from "./people.js";
import {TOOLS, engine, folderOf} from "./shared.js";
import {Person as AtTerminal} from "./terminal_person.js";

const LONG = process.env.ITS_LONG === "1", SECONDS = LONG ? 60 : 2, KILLS = LONG ? 200 : 6;
const ALL = [0, 1, 2, 3, 4, 5, 6, 7];
const skip = atHand() ? false : "there is no program";

/** A folder with a line editor at each of these consoles, which repeats keys and puts each line out backwards. */
function editors(consoles = ALL) { return folderOf({"start.its": jobsOf("sessions/edit.its", consoles)}); }

/** The same random numbers each time. */
function randomOf(seed) {
  let state = seed;
  return below => {
    state = (state * 1103515245 + 12345) % 2 ** 31;
    return Math.floor(state / 2 ** 16) % below;
  };
}

test("one person, and a second one at the same console", {skip}, async () => {
  const host = await new Host(editors([0]), "--check").start(), one = new Person(host.ports[0]);
  await one.asks("straws\x7f\r", "straws\b \b\r\nwarts\r\n");
  const other = await new Person(host.ports[0]).sees("Somebody sits at console 0.");
  await other.leave();
  await one.leave();
  const again = await Person.at(host.ports[0], "warts");          // what was there is shown
  assert.strictEqual(await host.stop(), 0, host.said);
  assert.match(host.written, /: verify says YES \d+\n$/);
  await again.leave();
});

test("eight people type at random, and verify accepts what they saw", {skip}, async () => {
  const host = await new Host(editors(), "--check").start(), end = Date.now() + 1000 * SECONDS;
  await Promise.all(ALL.map(async console => {
    const person = new Person(host.ports[console]), random = randomOf(console);
    do {
      const line = Array.from({length: 1 + random(40)}, () => String.fromCharCode(33 + random(90))).join("");
      person.seen = "";
      for (const key of line) {
        person.type(key);
        await pause(random(20));
      }
      await person.asks("\r", "\r\n" + [...line].reverse().join("") + "\r\n");
    } while (Date.now() < end);
    await person.leave();
  }));
  assert.strictEqual(await host.stop(), 0, host.said);
  assert.match(host.written, /: verify says YES \d+\n$/);
});

test("a host that is killed goes on where it was: what was seen is still there", {skip}, async () => {
  const folder = editors([0, 1]), host = new Host(folder), random = randomOf(7), typed = ["", ""];
  for (let at = 0; at < KILLS; at += 1) {
    await host.start();
    const people = await Promise.all([0, 1].map(console => Person.at(host.ports[console], typed[console].slice(-20))));
    for (let key = random(20); key > 0; key -= 1) for (const person of people) person.type(String.fromCharCode(97 + random(26)));
    await pause(random(LONG ? 60 : 200));
    await host.kill();
    for (const [console, person] of people.entries()) {
      assert.ok(person.seen.startsWith(typed[console].slice(0, 2000)), "what was seen is gone: " + typed[console] + ", " + person.seen);
      typed[console] = person.seen.replace(/^.*\n/s, "");
    }
    if (at % 3 === 2) fs.appendFileSync(path.join(folder, "session.its"), ["TYP", "TYPE 0 101 1", "\0\0\0"][at % 9 / 3 | 0]);     // a torn line
  }
  const checked = await new Host(folder, "--check").start();
  assert.strictEqual(await checked.stop(), 0, checked.said);
  assert.match(checked.written, /: verify says YES \d+\n$/);
});

/** What a hostile terminal does, again and again until it is stopped. */
const HOSTILE = {
  "sends more than anybody reads, and reads nothing": async person => {
    person.socket.pause();
    for (let at = 0; at < 20; at += 1) person.type("x".repeat(65536));
    await pause(300);
  },
  "sends options, NUL and bytes of 8 bits": async person => {
    person.type(Array.from({length: 3000}, (_, at) => "\xff\xfd" + String.fromCharCode(at % 256) + "\xff\xfe\x01\0\xe9\xff\xfa" + "\xff".repeat(at % 3)).join(""));
    await pause(100);
  },
  "presses Control-Z and leaves in the middle of a line": async person => {
    person.type("abc\x1a".repeat(10) + "de");
    await pause(20);
  }};

for (const [name, act] of Object.entries(HOSTILE)) {
  test("seven people and one who " + name, {skip}, async () => {
    const host = await new Host(editors(), "--check").start(), honest = ALL.slice(0, 7);
    let isOver = false;
    const hostile = (async () => {
      while (!isOver) {
        const person = new Person(host.ports[7]);
        await act(person);
        await person.leave();
      }
    })();
    await Promise.all(honest.map(async console => {
      const person = new Person(host.ports[console]);
      for (let at = 0; at < (LONG ? 50 : 3); at += 1) {
        await person.asks("hello" + at, "hello" + at);
        await person.asks("\r", "\r\n" + [...String(at)].reverse().join("") + "olleh\r\n");
      }
      await person.leave();
    }));
    isOver = true;
    await hostile;
    assert.strictEqual(await host.stop(), 0, host.said);
    assert.match(host.written, /: verify says YES \d+\n$/);
  });
}

test("two people log in and talk, one stops in the middle of a call and goes on, and the host is killed and started again", {skip}, async () => {
  const folder = folderOf({"start.its": system()}), host = new Host(folder);
  await host.start();
  let [joe, ann] = await Promise.all([0, 1].map(console => Person.at(host.ports[console], "HELP")));
  await joe.asks("login joe\r", /login joe\r\n\r\n\*$/);
  await ann.asks("login ann\r", /login ann\r\n\r\n\*$/);
  await joe.asks("talk ann\r", "^D LEAVES");
  await ann.asks("talk joe\r", "^D LEAVES");
  joe.type("hello");
  await ann.sees("hello");
  await joe.asks("\x1a", /STOPPED AT \d{6}\r\n\*$/);                   // in its .IOT
  ann.type("are you there");
  await ann.sees("are you there");
  await host.kill();
  await host.start();
  [joe, ann] = await Promise.all([0, 1].map(console => Person.at(host.ports[console], console ? "are you there" : "STOPPED AT")));
  await joe.asks("cont\r", "are you there");
  joe.type("yes");
  await ann.sees("yes");
  host.operate("stop 1");                // the operator stops her program
  await ann.sees(/STOPPED AT \d{6}\r\n\*$/);
  joe.type("?");
  await ann.asks("cont\r", "?");
  await ann.asks("\x04", /\*$/);
  await joe.sees("THE OTHER HAS LEFT");
  host.operate("who");
  while (!host.written.includes("console 1: somebody")) await pause(20);
  await host.stop();
  const checked = await new Host(folder, "--check").start();
  assert.strictEqual(await checked.stop(), 0, checked.said);
  assert.match(checked.written, /: verify says YES \d+\n$/);
});

/** Somebody at a terminal of their own, by telnet at a port, as soon as this text is shown there. */
async function terminal(port, wanted) {
  const person = new AtTerminal(["python3", path.join(TOOLS, "tests", "telnet_keys.py"), String(port)]);
  await person.wait(wanted);
  return person;
}

/** Types at a terminal, and waits for a text after what was shown before. */
async function asks(person, keys, wanted) {
  const since = person.text().length;
  person.type(keys);
  return person.wait(wanted, since);
}

/** What these lines show in a copy of the session of a folder, which goes on undisturbed. */
function inspected(folder, ...lines) {
  const text = wholeOf(fs.readFileSync(path.join(folder, "session.its"), "latin1"));
  return split(engine.run(text + lines.join("\n") + "\n").transcript).slice(-lines.length);
}

/** What PEEK shows of a job in a copy of the session, once the job waits in a call: the host may be in the middle of a round. */
async function waiting(folder, slot) {
  for (let left = 200; left; left -= 1) {
    const [shown] = inspected(folder, "PEEK " + slot);
    if (shown.startsWith("P " + slot + " WAITING ")) return shown;
    await pause(50);
  }
  throw new Error("slot " + slot + " does not wait in a call");
}

const IOT = "515764000000", JOE = "525745000000", CALC = "434154430000", AT_IOT = "310000000107";          // SIXBIT, and a PC word
const SLOT = "12";                       // of the program of one of two people: after eight command jobs and two listeners

/** Both log in and talk, and joe leaves. */
async function talked(joe, ann) {
  await asks(joe, "login joe\r", "login joe\r\n\r\n*");
  await asks(ann, "login ann\r", "login ann\r\n\r\n*");
  await asks(joe, "talk ann\r", "^D LEAVES");
  await asks(ann, "talk joe\r", "^D LEAVES");
  joe.type("may I stop you");
  await ann.wait("may I stop you");
  ann.type("any time");
  await joe.wait("any time");
  joe.type("\x04");
  await ann.wait("THE OTHER HAS LEFT. \r\n\r\n*");
}

/** Ann stops joe's program in its call: as PEEK shows, and STATE afterwards, and the last turn of the job. */
async function stopped(joe, ann, folder) {
  assert.strictEqual((await waiting(folder, SLOT)).split(" ")[3], IOT);          // it waits for a key, inside its .IOT
  const since = joe.text().length;
  await asks(ann, "halt 0\r", "IT IS STOPPED. \r\n\r\n*");
  await joe.wait("\r\nSTOPPED BY CONSOLE 1 AT 000107\r\n*", since);
  const [state] = inspected(folder, "STATE " + SLOT), turns = split(fs.readFileSync(path.join(folder, "session.out"), "latin1")).filter(line => line.startsWith("T " + SLOT + " "));
  assert.deepStrictEqual([state.split(" ").slice(2, 4), state.split(" ").slice(6, 8)], [[JOE, CALC], ["STOP", AT_IOT]]);
  assert.match(turns[turns.length - 1], /^T 12 \d+w$/);
}

test("two people at terminals talk; one stops the other's program in the middle of a call, and it goes on; the host is killed, and both go on",
     {skip: skip || (spawnSync("python3", ["-c", ""]).status !== 0 && "there is no python3")}, async () => {
  const folder = folderOf({"start.its": system()}), host = await new Host(folder, "--check").start();
  let [joe, ann] = [await terminal(host.ports[0], "HELP \r\n\r\n*"), await terminal(host.ports[1], "HELP \r\n\r\n*")];
  await talked(joe, ann);
  await asks(joe, "calc\r", "calc\r\n");
  await asks(joe, "12+", "12+");
  await stopped(joe, ann, folder);
  await asks(joe, "exam number+1\r", "000107/ 040040000001\r\n\r\n*");
  await asks(joe, "cont\r", "cont\r\n");
  await asks(joe, "7=", "7=21\r\n");                                   // 12 is still there
  await asks(joe, "30-", "30-");
  await waiting(folder, SLOT);
  await host.kill();
  assert.deepStrictEqual([await joe.ended(), await ann.ended()], [0, 0]);
  await Promise.all([joe.leave(), ann.leave()]);
  await host.start();
  [joe, ann] = [await terminal(host.ports[0], "7=21\r\n30-"), await terminal(host.ports[1], "IT IS STOPPED. \r\n\r\n*")];
  await asks(joe, "1=", "1=27\r\n");
  await asks(ann, "halt 0\r", "IT IS STOPPED. \r\n\r\n*");                // the listener is still there
  await joe.wait("STOPPED BY CONSOLE 1 AT 000107\r\n*");
  await asks(joe, "refuse on\r", "REQUESTS ARE REFUSED. \r\n\r\n*");
  await asks(joe, "cont\r", "cont\r\n");
  await asks(ann, "halt 0\r", "REFUSED. \r\n\r\n*");
  await asks(joe, "2*3=", "2*3=6\r\n");
  await asks(joe, "q", "*");
  await asks(joe, "talk ann\r", "^D LEAVES");
  await asks(ann, "talk joe\r", "^D LEAVES");
  ann.type("good night");
  await joe.wait("good night");
  assert.strictEqual(await host.stop(), 0, host.said);
  assert.match(host.written, /: verify says YES \d+\n$/);
  await Promise.all([joe.leave(), ann.leave()]);
});

/** The text that came out at a console, by the lines of a transcript. */
function putOut(console, lines) {
  return lines.filter(line => line.startsWith("D " + console + " ")).map(line => visible(line.split(" ").slice(2).map(number))).join("");
}

const NEARLY_FULL = /\r\n\[The session of this system is nearly full: (\d+) lines are left, [^\]]*\]\r\n/g;
const STOPS = /\r\n\[The system stops: its session is full, and is kept\. [^\]]*\]\r\n$/;

/** Joe writes a file, and types until the session is full. */
async function filled(joe) {
  joe.type("login joe\r");
  await joe.sees("login joe\r\n\r\n*");
  joe.type("edit a txt\r");
  await joe.sees("NEW FILE. \r\n>");
  joe.type("i\rkeep this\r.\rw\rq\r");
  await joe.sees(/WRITTEN\. \r\n>q\r\n\r\n\*$/);
  for (let at = 0; !STOPS.test(joe.seen) && !joe.isGone; at += 1) {
    joe.type(at % 50 === 49 ? "\x15" : String(at % 10));
    await pause(5);
  }
}

/** The lines that bring a file of an ended session to another one. */
function broughtLines(session, name) {
  const shown = split(engine.run(withoutEnd(session)[0] + "SHOW " + name + "\n").transcript), at = shown.findIndex(line => line.startsWith("W "));
  return ["FILE " + name, ...shown.slice(at + 1), "EOF", ""].join("\n");
}

test("a session that is full: people are told in time, nothing is lost, and a new system begins, to which a file is brought", {skip}, async () => {
  const begin = system(), folder = folderOf({"start.its": begin}), host = new Host(folder, "--check"), inFolder = name => fs.readFileSync(path.join(folder, name), "latin1");
  const room = 1500;                     // lines for people: 1000 more are kept for the end
  host.most = split(begin).length + room + 1000;
  await host.start();
  const [joe, ann] = await Promise.all([0, 1].map(console => Person.at(host.ports[console], "HELP \r\n\r\n*")));
  await filled(joe);
  await Promise.all([joe, ann].map(person => person.sees(STOPS)));
  assert.strictEqual(await host.ended, 1);
  assert.match(host.said, /: its session is full, and has ended; nothing is lost\. Start tools\/timesharing again/);
  assert.match(host.written, /: verify says YES \d+\n$/);
  const session = inFolder("session.its"), told = inFolder("session.out"), lines = split(session);
  assert.strictEqual(lines[lines.length - 1], "END");
  assert.ok(lines.length > split(begin).length + room && lines.length <= host.most, String(lines.length));
  for (const [console, {seen}] of [joe, ann].entries()) {
    const left = [...seen.matchAll(NEARLY_FULL)].map(([, count]) => Number(count));
    assert.ok(left.length === 3 && left.every((count, at) => count <= host.most / 4 ** (at + 1) && count > host.most / 4 ** (at + 1) - 200), left.join());
    assert.strictEqual(seen.replace(NEARLY_FULL, "").replace(STOPS, ""), putOut(console, split(told)));      // each byte that was put out, and no other
  }
  const next = await new Host(folder).start();
  assert.match(next.written, /: its session had ended, and is session-1\.its now; a new system begins, without its files\n/);
  const fresh = await Person.at(next.ports[0], "HELP \r\n\r\n*");
  assert.strictEqual(fresh.seen, "ITS, CONSOLE 0. LOGIN NAME, HELP \r\n\r\n*");
  await next.stop();
  assert.deepStrictEqual([inFolder("session-1.its"), inFolder("session-1.out")], [session, told]);
  fs.appendFileSync(path.join(folder, "session.its"), broughtLines(session, "JOE A TXT"));
  await next.start();
  const again = await Person.at(next.ports[0], "*");
  await again.asks("login joe\r", "login joe\r\n\r\n*");
  await again.asks("print a txt\r", "print a txt\r\nkeep this\r\n");
  assert.strictEqual(await next.stop(), 0, next.said);
});

test("a host that was killed before it could end a full session ends it when it is started", {skip}, async () => {
  const folder = folderOf({"session.its": "VERSION 2\n" + "CLOCK 1\n".repeat(1000)}), host = new Host(folder);
  host.most = 2000;
  await assert.rejects(host.start(), /its session is full, and has ended/);
  assert.strictEqual(await host.ended, 1);
  assert.match(fs.readFileSync(path.join(folder, "session.its"), "latin1"), /\nDIR _\nEND\n$/);
});

test("with nobody typing it uses no processor time", {skip}, async () => {
  const host = await new Host(editors()).start(), people = await Promise.all(ALL.map(console => Person.at(host.ports[console])));
  await Promise.all(people.map(person => person.asks("a", "a")));
  await pause(500);
  const before = await host.seconds();
  await pause(1500);
  assert.ok(await host.seconds() - before <= 0.01);
  await Promise.all(people.map(person => person.leave()));
  await host.stop();
});
