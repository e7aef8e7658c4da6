// Shared by the page and the commands: the names that MIDAS itself has: instructions, names with a value, and what is refused, with the cause.

import {OPCODES} from "../chart.js";
import {alike} from "../alike.js";

/** How many characters of a name count. */
export const SIGNIFICANT = 6;

/** Names before a text between two equal characters, and names before a text up to the end of the line. */
export const TEXTS = ["SIXBIT", "ASCII", "ASCIZ", ".LENGT"];
export const LINES = ["TITLE", "SUBTTL", ".SEE", ".XCREF", ".CRFON", ".CRFOF", ".SYMTA", ".AUXIL"];

// Instructions that are others with another name, and those with an accumulator of their own
/** @type {Record<string, string>} */
const ALIASES = {OR: "IOR", ORI: "IORI", ORM: "IORM", ORB: "IORB", CLEAR: "SETZ", CLEARI: "SETZI", CLEARM: "SETZM", CLEARB: "SETZB"};
/** @type {Record<string, [string, number]>} */
const WITH_ACCUMULATOR = {JRSTF: ["JRST", 0o2], HALT: ["JRST", 0o4], JOV: ["JFCL", 0o10], JCRY0: ["JFCL", 0o4], JCRY1: ["JFCL", 0o2],
                          JCRY: ["JFCL", 0o6], JFOV: ["JFCL", 0o1], ".VALUE": [".BREAK", 0o16]};

/** The modes of OPEN on ITS: unit and block, input and output, ASCII and image; and the types of the arguments of a call.
 * @type {Record<string, number>} */
export const GIVEN = {".UAI": 0, ".UAO": 1, ".BAI": 2, ".BAO": 3, ".UII": 4, ".UIO": 5, ".BII": 6, ".BIO": 7,
                      "%CLIN": 0, "%CLIMM": 0o1000, "%CLOUT": 0o2000, "%CLERR": 0o3000, "%CLBIT": 0o4000, "%CLBTW": 0o5000};

/** Conditions.
 * @type {Set<string>} */
const CONDITIONS = new Set("IF1 IF2 IFE IFN IFG IFL IFGE IFLE IFB IFNB IFSE IFSN IFDEF IFNDEF .ALSO .ELSE".split(" "));
/** What gives or takes whole pieces of text. */
export const PIECES = new Set(["DEFINE", "REPEAT", ".INSRT", ...[...CONDITIONS].map(name => name.slice(0, SIGNIFICANT))]);

const MACRO = "of macros DEFINE and REPEAT are understood; write the lines that it gives";
const CONDITION = "this condition is not understood; keep the lines that count";
const SYMBOLS = "what is said about the symbol table is not understood; leave the line out";
const BLOCKS = "blocks of symbols are not understood; give each symbol a name of its own";
const DATA = "it is not understood; write the words in octal";
const MODE = "modes of assembly are not understood; the text is absolute, and its numbers are octal";

/** Names with a cause, by their causes.
 * @param {[string, string][]} rows
 * @returns {[string, string][]} */
function byName(rows) {
  return rows.flatMap(([names, cause]) => names.split(" ").map(name => /** @type {[string, string]} */ ([name, cause])));
}

/** What MIDAS knows and this translation refuses.
 * @type {Map<string, string>} */
export const REFUSED = new Map(byName([
  ["IRP IRPC IRPS IRPW IRPNC .IRPCN .ISTOP .TAG .GO .STOP .QUOTE", MACRO],
  ["TERMIN", "no DEFINE is above it"],
  [".ELSEI", CONDITION],
  [".BEGIN .END", BLOCKS],
  [".GLOBA .EXTER .ENTRY EXPUNG .KILL .HKILL SQUOZE .SYMCN .LIBRA .LOP .LIBRQ", SYMBOLS],
  ["RADIX .RELOC OFFSET .OFFSE .DECRE .DECSA .SBLK .RIM .RIM10 .ABS .LNKOT .SLDR RELOCA NOSYMS .NSTGW .YSTGW", MODE],
  [".ASCII .ASCVL .BYTE .BYTC .WALGN .BP .BM .RB .NTHWD .1STWD .TYPE .FORMA EQUALS", DATA],
  ["PRINTX PRINTC .ERR .FATAL .TYO .TYO6 .TTYFL", "nothing is typed while a text is translated; leave the line out"]]));

const NO_CALL = "the monitor here has no such call; .CALL has its calls (docs/MIDAS.md, \"Calls of ITS\")";

/** What is no symbol of MIDAS that a text has to leave alone, and that is refused with a cause if the text does not define it.
 * @type {Map<string, string>} */
const UNKNOWN = new Map([
  [".LOSE", "the monitor here has no .LOSE; .BREAK 16, stops the job"],
  ...byName([
    ["WORD GO JOB", "it is of the assembler here and not of MIDAS: a word is written without WORD, GO is END, and the words of tools/midas " +
                    "name the job"],
    ["EXP XWD BYTE POINT OCT DEC IOWD Z", "it is of MACRO-10 and not of MIDAS; write the word itself, as -1,,X"],
    [".OPEN .CLOSE .STATUS .STATU .SLEEP .SUSET .USET .UCLOS .RESET .RCHST .ACCES .FDELE .ATTY .DTTY .GUN .DISMI .HANG .OPER .RDATI" +
     " .RDATE .RTIME .RDTIM .LISTE .TTYNO .CORE .CBLK .UDISM .SETM2 .MASTE .ITYI .ITYIC", NO_CALL],
    ["FAD FADR FADRI FADRM FADRB FSB FSBR FSBRI FMP FMPR FMPRI FDV FDVR FDVRI FSC DFN UFA FIX FIXR FLTR",
     "the machine here has no floating point"],
    ["ADJSP DMOVE DMOVEM DMOVN DMOVNM DADD DSUB DMUL DDIV XMOVEI XHLLI ADJBP MAP BLKI BLKO DATAI DATAO CONI CONO CONSZ CONSO" +
     " UJEN LUUO MOVSLJ CMPSE EXTEND", "the machine here has no such instruction"]])]);

/** Names that begin a statement of another kind than words. */
export const STATEMENTS = ["LOC", "BLOCK", "CONSTA", "VARIAB", "END", ".MLLIT", ".SCALA", ".VECTO", ...TEXTS, ...LINES];

/** The word that an opcode is alone.
 * @param {string} name */
function wordOf(name) { return /** @type {number} */ (OPCODES.get(name)) * 2 ** 27; }

/** Each name of an instruction with the word that it is.
 * @type {Map<string, number>} */
export const INSTRUCTIONS = new Map([
  ...[...OPCODES.keys()].map(name => /** @type {[string, number]} */ ([name.slice(0, SIGNIFICANT), wordOf(name)])),
  ...Object.entries(ALIASES).map(([name, other]) => /** @type {[string, number]} */ ([name, wordOf(other)])),
  ...Object.entries(WITH_ACCUMULATOR).map(([name, [other, own]]) => /** @type {[string, number]} */ ([name, wordOf(other) + own * 2 ** 23]))]);

/** Whether MIDAS itself has a name, so that a text may give it no other meaning.
 * @param {string} name */
export function isTaken(name) {
  return INSTRUCTIONS.has(name) || STATEMENTS.includes(name) || REFUSED.has(name) || PIECES.has(name) || name === ".LOGOU";
}

/** Why a name is not understood, and which names are near.
 * @param {string} name
 * @param {Iterable<string>} defined */
export function whyUnknown(name, defined) {
  const cause = REFUSED.get(name) || UNKNOWN.get(name);
  if (cause) return name + ": " + cause;
  const near = alike(name, [...INSTRUCTIONS.keys(), ...STATEMENTS, ...[...defined].sort()], 3);
  return name + " is neither an instruction nor a symbol of this text" + (near.length ? "; near it: " + near.join(", ") : "");
}
