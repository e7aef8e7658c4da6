// For the commands, in node: serves the consoles of a system over TCP. What terminals type becomes rounds of the session, and what the program
// answers is shown, once the lines are kept.

import {createServer} from "node:net";

import {Rounds} from "../rounds.js";
import {Over} from "../sitting.js";
import {CONSOLES} from "../system.js";
import {INTERRUPT, OPENING, Telnet} from "../telnet.js";
import {Wrong, octal} from "../words.js";

/** @typedef {import("../system.js").System} System */
/** @typedef {import("./folder.js").Folder} Folder */
/** @typedef {import("./living.js").Living} Living */
/** @typedef {import("node:net").Socket} Socket */
/** @typedef {import("node:net").Server} Server */

export const MOST_LINES = 0o4000000;     // of a session (docs/SESSION.md, "The program")
const LAST_LINES = 1000;                 // a session with no more room than this is ended: the lines of two rounds, at most
const WARNINGS = [4, 16, 64];            // people are told when a fourth of the lines is left, when a sixteenth is, and so on
const FULL = "its session is full, and is kept. Started again, it is a new system, to which its operator can bring your files";
const MOST_KEYS = 4096;                  // a terminal with so many keys that are not typed yet is not read
const MOST_OUTPUT = 4096;                // a terminal that has not read so many bytes gets no more output
const MOST_WAITING = 65536;              // and one that is to be answered so much all the same is cut off
const LAST_MS = 2000;                    // a terminal has so long to read the last text
const ALIVE_MS = 60000;                  // after so long without a word the system asks whether a terminal is still there

/** A terminal at a console. */
class Client {
  /** @param {Service} service
   * @param {number} console
   * @param {Socket} socket */
  constructor(service, console, socket) {
    this.service = service;
    this.console = console;
    this.socket = socket;
    this.telnet = new Telnet(console);
    this.isPaused = false;
    socket.setNoDelay(true);
    socket.setKeepAlive(true, ALIVE_MS);
    socket.write(Uint8Array.from(OPENING));
    socket.on("data", bytes => this.take(bytes));
    socket.on("drain", () => this.service.flow(this, true));
    socket.on("end", () => socket.end());
  }

  /** Bytes came.
   * @param {Uint8Array} bytes */
  take(bytes) {
    const {keys, answers} = this.telnet.feed(bytes);
    if (answers.length) this.socket.write(Uint8Array.from(answers));
    if (this.socket.writableLength > MOST_WAITING) this.leave();
    else this.service.press(this, keys);
  }

  /** Leaves the console. */
  leave() {
    const {clients, system} = this.service;
    this.socket.destroy();
    if (clients[this.console] !== this) return;
    clients[this.console] = null;
    system.leave(this.console);
  }

  /** Shows a text.
   * @param {string} text */
  show(text) {
    this.socket.write(text, "latin1");
    if (this.socket.writableLength > MOST_OUTPUT) this.service.flow(this, false);
  }

  /** Tells something that is no part of the session.
   * @param {string} text */
  tell(text) { this.show("\r\n[" + text + "]\r\n"); }

  /** Reads on, or does not, by how many keys wait.
   * @param {number} waiting */
  pace(waiting) {
    if (waiting > MOST_KEYS === this.isPaused) return;
    this.isPaused = !this.isPaused;
    if (this.isPaused) this.socket.pause();
    else this.socket.resume();
  }
}

/** The consoles of a system. */
export class Service {
  /** @param {System} system
   * @param {Living} living
   * @param {Folder} folder
   * @param {() => number} now milliseconds
   * @param {number} most lines of the session */
  constructor(system, living, folder, now, most = MOST_LINES) {
    this.system = system;
    this.living = living;
    this.folder = folder;
    this.most = most;
    this.warned = this.passed;
    /** @type {(Client | null)[]} */
    this.clients = Array.from({length: CONSOLES}, () => null);
    /** @type {Server[]} */
    this.servers = [];
    this.rounds = new Rounds(system, this, now);
    this.isStopping = this.isFull = false;
    this.why = "";                       // it stopped
    /** @type {() => void} */
    this.whenOver = () => {};
    /** @type {Promise<void>} */
    this.over = new Promise(resolve => { this.whenOver = resolve; });
  }

  /** Listens for each console: at a port of its own, the first one given, or at any ports. The ports.
   * @param {number} port
   * @param {string} address
   * @returns {Promise<number[]>} */
  async listen(port, address) {
    for (let console = 0; console < CONSOLES; console += 1) {
      const server = createServer({allowHalfOpen: true}, socket => this.arrive(console, socket));
      this.servers.push(server);
      await new Promise((resolve, reject) => {
        server.on("error", problem => reject(new Over(address + ":" + (port && port + console) + ": " + (problem.code || problem.message))));
        server.on("listening", resolve);
        server.listen(port && port + console, address);
      });
    }
    return this.servers.map(server => server.address().port);
  }

  /** A terminal comes to a console.
   * @param {number} console
   * @param {Socket} socket */
  arrive(console, socket) {
    socket.on("error", () => {});        // it is closed
    const other = this.clients[console];
    if (other && other.isPaused) other.leave();          // it may have gone: nobody knows, because it is not read
    if (this.clients[console] || this.isStopping) {
      dismiss(socket, this.isStopping ? "The system stops.\r\n" : "Somebody sits at console " + octal(console) + ".\r\n");
      return;
    }
    const client = this.clients[console] = new Client(this, console, socket);
    socket.on("close", () => client.leave());
    client.show(this.system.arrive(console));
    if (this.warned) client.tell(this.warning);
    this.rounds.wake();
  }

  /** Keys came from a terminal.
   * @param {Client} client
   * @param {number[]} keys */
  press(client, keys) {
    if (this.clients[client.console] !== client) return;
    this.system.press(client.console, keys);
    client.pace(this.system.desks[client.console].keys.length);
    this.rounds.wake();
  }

  /** The operator presses Control-Z at a console.
   * @param {number} console */
  interrupt(console) {
    this.system.press(console, [INTERRUPT]);
    this.rounds.wake();
  }

  /** A terminal takes output again, or does not.
   * @param {Client} client
   * @param {boolean} takes */
  flow(client, takes) {
    if (this.clients[client.console] !== client) return;
    this.system.flow(client.console, takes);
    if (takes) this.rounds.wake();
  }

  /** Says something to all who sit at a console. It is no part of the session.
   * @param {string} text */
  say(text) { for (const client of this.clients) client?.tell(text); }

  /** How many lines there is room for, until the session is ended. */
  get left() { return Math.max(0, this.most - LAST_LINES - this.folder.lines); }

  /** How many of the warnings are due by now. */
  get passed() { return WARNINGS.filter(part => this.left <= this.most / part).length; }

  /** What people are told before the session is full. */
  get warning() {
    return "The session of this system is nearly full: " + this.left + " lines are left, and a key takes about six. Write what you edit: once it is " +
           "full the system stops, and files alone can be brought to the next one";
  }

  /** Adds lines to the session: they are on the disk before anything of them is shown.
   * @param {string[]} lines */
  keep(lines) {
    this.folder.add(lines);
    return this.folder.kept();
  }

  /** Tells people how many lines are left, if it is time. */
  warn() {
    const {passed} = this;
    if (passed > this.warned) this.say(this.warning);
    this.warned = passed;
  }

  /** Gives lines to the program.
   * @param {string[]} lines */
  write(lines) { this.living.write(lines); }

  /** The next line that it answers. */
  read() { return this.living.read(); }

  /** Takes the answers of a round.
   * @param {string[]} answers */
  told(answers) { this.folder.told(answers); }

  /** Shows output of a console.
   * @param {number} console
   * @param {string} text */
  show(console, text) { this.clients[console]?.show(text); }

  /** A round is over. */
  done() {
    for (const client of this.clients) client?.pace(this.system.desks[client.console].keys.length);
    if (this.left === 0) this.fill();
    else this.warn();
  }

  /** There are no more rounds.
   * @param {*} problem */
  failed(problem) { this.stop(problem instanceof Over || problem instanceof Wrong ? problem.message : String(problem.stack)); }

  /** The session has as many lines as it may have. */
  fill() {
    this.isFull = true;
    this.stop(FULL);
  }

  /** Stops after the round that goes on: nobody is served any more.
   * @param {string} why */
  stop(why) {
    if (this.isStopping) return;
    this.isStopping = true;
    this.why = why;
    this.rounds.hold();
    this.say("The system stops" + (why ? ": " + why : "") + ".");
    for (const server of this.servers) server.close();
    this.rounds.going.then(() => this.whenOver());
  }

  /** Closes all that is open. */
  close() { for (const client of this.clients) if (client) dismiss(client.socket, ""); }
}

/** Ends a connection, without waiting for its other end.
 * @param {Socket} socket
 * @param {string} text what is said at last */
function dismiss(socket, text) {
  socket.end(text, () => socket.destroy());
  const late = setTimeout(() => socket.destroy(), LAST_MS);
  socket.on("close", () => clearTimeout(late));
}
