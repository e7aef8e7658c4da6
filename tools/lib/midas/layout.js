// Shared by the page and the commands: the places of all parts of a MIDAS text: the first pass, which gives addresses to words, literals and
// variables.

import {whyUnknown} from "./known.js";
import {Placed, Pool} from "./placed.js";
import {Search} from "./search.js";
import {START, severalValues} from "./statements.js";
import {ADDRESSES, HALF, Here, Literal, Minus, Name, Num, Refused, Slot, Swapped, Text, Two, Word, meaningOf, sizeOf, statementOf} from "./tree.js";
import {SeveralWords, Unknown, Values, entryOf} from "./values.js";

/** @typedef {import("./placed.js").Variable} Variable */
/** @typedef {import("./tree.js").Item} Item */
/** @typedef {import("./tree.js").Node} Node */
/** @typedef {import("./tree.js").Place} Place */
/** @typedef {import("./tree.js").Statement} Statement */
/** @typedef {import("./values.js").Entry} Entry */

/** A text with its addresses.
 * @typedef {{values: Values, placed: (Placed | Pool)[], shortened: Map<string, string>}} Layout */

/** The first pass. */
class Laying {
  /** @param {Statement[]} statements */
  constructor(statements) {
    this.values = new Values();
    /** @type {(Placed | Pool)[]} */
    this.placed = [];
    this.changing = severalValues(statements);
    this.location = START;
    /** @type {Slot[]} */
    this.slots = [];                     // literals that wait for their place
    /** @type {Map<string, Slot>} */
    this.waiting = new Map();            // the same by their words, or by what is written
    this.count = 0;
    /** @type {Variable[]} */
    this.variables = [];
    /** @type {Entry[]} */
    this.pending = [];                   // symbols whose values name what comes later
    for (const statement of statements) this.lay(statement);
    this.settle();
  }

  // Expressions

  /** An expression as it is meant here: literals have their place, `.` and symbols that change their values.
   * @param {Node} node
   * @returns {Node} */
  fixed(node) {
    if (node instanceof Here) return new Here(this.location);
    if (node instanceof Name) return this.fixedName(node);
    if (node instanceof Minus) return new Minus(this.fixed(node.of));
    if (node instanceof Swapped) return new Swapped(this.fixed(node.of));
    if (node instanceof Two) return new Two(node.operator, this.fixed(node.left), this.fixed(node.right), node.at);
    if (node instanceof Word) return this.fixedWord(node);
    if (node instanceof Literal) return this.slot(node);
    if (node instanceof Text && node.words.length !== 1) throw new SeveralWords();
    return node;
  }

  /** A symbol that changes has the value that it has now.
   * @param {Name} node */
  fixedName(node) {
    if (!this.changing.has(node.name)) return node;
    const entry = this.values.entries.get(node.name);
    if (!entry || entry.value === null) {
      throw new Refused(node.at, node.name + " is given several values, and the first one comes later");
    }
    return new Num(entry.value, false);
  }

  /** The same of a word.
   * @param {Word} word */
  fixedWord(word) {
    const {operation, left, accumulator, address} = word;
    if (operation instanceof Name && this.changing.has(operation.name)) {
      throw new Refused(operation.at, operation.name + " is an instruction here, and is given several values");
    }
    return new Word({...word, left: left && this.fixed(left), accumulator: accumulator && this.fixed(accumulator),
                     address: address && this.fixed(address)});
  }

  /** The same of a whole statement, or of one of a literal.
   * @param {Word | Text} content */
  fixedContent(content) {
    if (content instanceof Text) return content;
    try {
      return this.fixedWord(content);
    } catch (problem) {
      throw problem instanceof SeveralWords ? new Refused(content.at, problem.message) : problem;
    }
  }

  /** The place of a literal among those that wait: an equal one has it already, or it is the next.
   * @param {Literal} literal */
  slot(literal) {
    const items = literal.items.map(item => ({...item, content: this.fixedContent(item.content)})), key = this.key(items);
    const before = this.waiting.get(key);
    if (before) return before;
    this.count += 1;
    const slot = new Slot(items, this.count);
    this.waiting.set(key, slot);
    this.slots.push(slot);
    return slot;
  }

  /** What equal literals share: their words, or what is written if the words are not known yet.
   * @param {Item[]} items */
  key(items) {
    try {
      return items.flatMap(({content}) => content instanceof Text ? content.words : [this.values.of(content)]).join(" ");
    } catch (problem) {
      if (!(problem instanceof Unknown)) throw problem;
      return meaningOf(items);
    }
  }

  /** The value of an expression that has to be known here.
   * @param {Word | Text} content
   * @param {string} what
   * @param {Place} at */
  now(content, what, at) {
    const value = this.valueOr(content, problem => {
      throw new Refused(problem.at || at, problem.symbol + " is not known here: what " + what + " names has to be defined above it");
    });
    if (value > HALF) throw new Refused(at, what + " has the value " + value.toString(8) + ", which is no address");
    return value;
  }

  /** The value of an expression, or what is given instead if it is not known yet.
   * @template T
   * @param {Word | Text} content
   * @param {(problem: Unknown) => T} instead */
  valueOr(content, instead) {
    try {
      return this.values.of(content);
    } catch (problem) {
      if (!(problem instanceof Unknown)) throw problem;
      return instead(problem);
    }
  }

  // Statements

  /** One statement more.
   * @param {Statement} statement */
  lay(statement) {
    const {kind, at} = statement;
    for (const label of statement.labels) this.values.define(entryOf(label.name, label.at, this.location % ADDRESSES));
    const content = statement.content && this.fixedContent(statement.content);
    if (content instanceof Text && content.words.length !== 1 && kind !== "WORDS") throw new Refused(at, new SeveralWords().message);
    const placed = new Placed(statement, this.location, content);
    if (content) this.layContent(statement, content);
    if (kind === "RESERVE") return;
    if (kind === "CONSTANTS" || kind === "VARIABLES") {
      this.placed.push(placed);
      return this.pool(at, kind === "CONSTANTS", kind === "VARIABLES", this.location, "");
    }
    if (kind === "END") {
      this.end(statement);
      placed.location = this.location;
    }
    this.placed.push(placed);
  }

  /** What the content of a statement does.
   * @param {Statement} statement
   * @param {Word | Text} content */
  layContent({kind, name, at}, content) {
    if (kind === "RESERVE") this.variables.push({name, size: this.now(content, "the size of a variable", at), at});
    else if (kind === "EQUALS") this.equals(name, at, content);
    else if (kind === "LOC") this.location = this.now(content, "LOC", at);
    else if (kind === "BLOCK") this.location = within(this.location + this.now(content, "BLOCK", at), at);
    else if (kind === "WORDS") this.location = within(this.location + sizeOf(content), at);
  }

  /** A symbol gets a value, now or when all is known.
   * @param {string} name
   * @param {Place} at
   * @param {Word | Text} content */
  equals(name, at, content) {
    const entry = entryOf(name, at, null, content, this.changing.has(name));
    entry.value = this.valueOr(content, problem => {
      if (entry.changes) {
        throw new Refused(problem.at || at, problem.symbol + " is not known here, and " + name + " is given several values");
      }
      this.pending.push(entry);
      return null;
    });
    this.values.define(entry);
  }

  /** The values of symbols that named what came later. */
  settle() {
    while (this.pending.length) {
      /** @type {[Entry, Unknown][]} */
      const rest = [];
      for (const entry of this.pending) {
        entry.value = this.valueOr(/** @type {Word | Text} */ (entry.node), problem => {
          rest.push([entry, problem]);
          return null;
        });
      }
      if (rest.length === this.pending.length) {
        const [entry, problem] = rest[0];
        throw new Refused(problem.at || entry.at, this.values.entries.has(problem.symbol) ?
          problem.symbol + " has no value, since it needs itself" : whyUnknown(problem.symbol, this.values.entries.keys()));
      }
      this.pending = rest.map(([entry]) => entry);
    }
  }

  // Literals and variables

  /** The literals or the variables that wait get their places.
   * @param {Place} at
   * @param {boolean} literals
   * @param {boolean} variables
   * @param {number} location
   * @param {string} moved */
  pool(at, literals, variables, location, moved) {
    const pool = new Pool(at, location, literals ? this.slots : [], variables ? this.variables : [], moved);
    let where = location;
    for (const slot of pool.slots) {
      slot.address = where;
      where += slot.size;
    }
    for (const variable of pool.variables) {
      this.values.define(entryOf(variable.name, variable.at, where));
      where += variable.size;
    }
    if (literals) [this.slots, this.waiting] = [[], new Map()];
    if (variables) this.variables = [];
    this.location = within(where, at);
    if (pool.slots.length || pool.variables.length) this.placed.push(pool);
  }

  /** The literals and variables that are left get a place that no buffer meets, after the labels of END.
   * @param {Statement} statement */
  end(statement) {
    const {at} = statement;
    if (statement.labels.length) {
      this.placed.push(new Placed(statementOf("NOTHING", at, {labels: statement.labels}), this.location));
      statement.labels = [];
    }
    const {size} = new Pool(at, 0, this.slots, this.variables, "");
    if (!size) return;
    const search = new Search(this.placed.map(one => this.taken(one)), this.values), [place, moved] = search.place(this.location, size, at);
    this.pool(at, true, true, place, moved);
  }

  /** The words that a part of the text takes: the first address, and how many.
   * @param {Placed | Pool} one
   * @returns {[number, number]} */
  taken(one) {
    if (one instanceof Pool) return [one.location, one.size];
    const {kind} = one.statement;
    return [one.location, !one.content ? 0 : kind === "WORDS" ? sizeOf(one.content) : kind === "BLOCK" ? this.values.of(one.content) : 0];
  }
}

/** A location that is at most the one after the last word of core.
 * @param {number} location
 * @param {Place} at */
function within(location, at) {
  if (location > ADDRESSES) throw new Refused(at, "the location passes 777777, the last word of core");
  return location;
}

/** The first pass over a text.
 * @param {{statements: Statement[], shortened: Map<string, string>}} source
 * @returns {Layout} */
export function laidOut({statements, shortened}) {
  const {values, placed} = new Laying(statements);
  return {values, placed, shortened};
}
