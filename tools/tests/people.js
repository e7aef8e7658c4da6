// For the tests of tools/timesharing: hosts that are started and killed, and people at their consoles.

import {spawn} from "node:child_process";
import net from "node:net";
import path from "node:path";
import process from "node:process";

import {atHand} from "../lib/node/program.js";
import {OPENING} from "../lib/telnet.js";
import {joined, split} from "../lib/session.js";
import {octal} from "../lib/words.js";
import {TOOLS, textOf} from "./shared.js";

const PATIENCE_MS = 20000;

/** Waits so many milliseconds. */
export function pause(milliseconds) { return new Promise(resolve => setTimeout(resolve, milliseconds)); }

/** The lines of a session up to its first GO, as a job at each of these consoles. */
export function jobsOf(name, consoles) {
  const lines = split(textOf(name)), first = lines.findIndex(line => line.startsWith("LOAD")), last = lines.findIndex(line => line.startsWith("GO"));
  const [, user, job] = lines[first].split(" "), rest = lines.slice(first + 1, last + 1).filter(line => !/^(SYM|;)/.test(line));
  return "VERSION 2\n" + consoles.map(console => joined(["LOAD " + user + " " + job + " " + octal(console), ...rest])).join("");
}

/** A host of a folder. */
export class Host {
  constructor(folder, ...words) {
    this.words = [folder, "--port", "0", ...words];
    this.most = "-";                     // lines that a session may have; else as many as the program takes
    this.ports = [];
    this.said = "";
    this.written = "";
  }

  /** Starts it, and waits until it serves. */
  async start() {
    this.child = spawn(process.execPath, [path.join(TOOLS, "tests", "serving.js"), atHand(), this.most, ...this.words], {stdio: ["pipe", "pipe", "pipe"]});
    this.ended = new Promise(resolve => this.child.on("close", status => resolve(status)));
    this.written = "";
    this.child.stderr.on("data", part => { this.said += part; });
    await Promise.race([this.ended, new Promise(resolve => this.child.stdout.on("data", part => {
      this.written += part;
      if (/console 7: .*\n/.test(this.written)) resolve(0);
    }))]);
    this.ports = [...this.written.matchAll(/console (\d): telnet \S+ (\d+)\n/g)].map(([, , port]) => Number(port));
    if (this.ports.length !== 8) throw new Error("the host does not serve: " + this.said);
    return this;
  }

  /** Types a line of its operator. */
  operate(line) { this.child.stdin.write(line + "\n"); }

  /** Kills it, with no time to write anything. */
  async kill() {
    this.child.kill("SIGKILL");
    await this.ended;
  }

  /** Stops it: its status. */
  async stop() {
    this.child.kill("SIGTERM");
    return this.ended;
  }

  /** Seconds of processor time that it took, with its program. */
  async seconds() {
    const {readFileSync, readdirSync} = await import("node:fs"), ticksOf = id => readFileSync("/proc/" + id + "/stat", "latin1").split(" ").slice(13, 15);
    const all = readdirSync("/proc").filter(name => /^\d+$/.test(name)).filter(id => {
      try {
        return id === String(this.child.pid) || readFileSync("/proc/" + id + "/stat", "latin1").split(" ")[3] === String(this.child.pid);
      } catch { return false; }
    });
    return all.flatMap(ticksOf).reduce((sum, ticks) => sum + Number(ticks), 0) / 100;
  }
}

/** Somebody at a console. */
export class Person {
  constructor(port) {
    this.seen = "";
    this.isGone = this.isServed = false;
    this.wake = () => {};
    this.socket = net.connect(port, "127.0.0.1");
    this.socket.on("error", () => {});
    this.socket.on("close", () => {
      this.isGone = true;
      this.wake();
    });
    this.socket.on("data", part => {
      this.seen += part.toString("latin1").replaceAll(String.fromCharCode(...OPENING), "");
      this.isServed = true;
      this.wake();
    });
  }

  /** Sits down, as soon as nobody else is there. */
  static async at(port, wanted = "") {
    for (;;) {
      const person = new Person(port);
      while (!person.isServed) await pause(10);
      if (!person.seen.startsWith("Somebody sits")) return person.sees(wanted);
      await person.leave();
      await pause(50);
    }
  }

  /** Types keys. */
  type(keys) { this.socket.write(keys, "latin1"); }

  /** Waits until what was seen fits. */
  async sees(wanted) {
    const fits = () => typeof wanted === "string" ? this.seen.includes(wanted) : wanted.test(this.seen), end = Date.now() + PATIENCE_MS;
    while (!fits()) {
      if (this.isGone || Date.now() > end) throw new Error("not seen: " + wanted + ", but " + JSON.stringify(this.seen.slice(-300)));
      await Promise.race([pause(100), new Promise(resolve => { this.wake = resolve; })]);
    }
    return this;
  }

  /** Types a line and waits for what follows it. */
  async asks(line, wanted) {
    this.seen = "";
    this.type(line);
    return this.sees(wanted);
  }

  /** Leaves. */
  async leave() {
    this.socket.destroy();
    while (!this.isGone) await Promise.race([pause(100), new Promise(resolve => { this.wake = resolve; })]);
  }
}
