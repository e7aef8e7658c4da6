// Shared by the page and the commands: the names of instructions, as the chart of the assembler has them (crates/its_chart/src/mnemonic.rt;
// a test compares the two).

import {bits, octal} from "./words.js";

/** The names of the opcodes from 000 to 677, sixteen a row; `-` if an opcode has none. */
const CHART = `
  - - - - - - - - - - - - - - - -
  - - - - - - - - - - - - - - - -
  .IOT - - .CALL - .BREAK - - - - - - - - - -
  - - - - - - - - - - - - - - - -
  - - - - - - - - - - - - - - - -
  - - - - - - - - - - - IBP ILDB LDB IDPB DPB
  - - - - - - - - - - - - - - - -
  - - - - - - - - - - - - - - - -
  MOVE MOVEI MOVEM MOVES MOVS MOVSI MOVSM MOVSS MOVN MOVNI MOVNM MOVNS MOVM MOVMI MOVMM MOVMS
  IMUL IMULI IMULM IMULB MUL MULI MULM MULB IDIV IDIVI IDIVM IDIVB DIV DIVI DIVM DIVB
  ASH ROT LSH JFFO ASHC ROTC LSHC - EXCH BLT AOBJP AOBJN JRST JFCL XCT -
  PUSHJ PUSH POP POPJ JSR JSP JSA JRA ADD ADDI ADDM ADDB SUB SUBI SUBM SUBB
  CAI CAIL CAIE CAILE CAIA CAIGE CAIN CAIG CAM CAML CAME CAMLE CAMA CAMGE CAMN CAMG
  JUMP JUMPL JUMPE JUMPLE JUMPA JUMPGE JUMPN JUMPG SKIP SKIPL SKIPE SKIPLE SKIPA SKIPGE SKIPN SKIPG
  AOJ AOJL AOJE AOJLE AOJA AOJGE AOJN AOJG AOS AOSL AOSE AOSLE AOSA AOSGE AOSN AOSG
  SOJ SOJL SOJE SOJLE SOJA SOJGE SOJN SOJG SOS SOSL SOSE SOSLE SOSA SOSGE SOSN SOSG
  SETZ SETZI SETZM SETZB AND ANDI ANDM ANDB ANDCA ANDCAI ANDCAM ANDCAB SETM SETMI SETMM SETMB
  ANDCM ANDCMI ANDCMM ANDCMB SETA SETAI SETAM SETAB XOR XORI XORM XORB IOR IORI IORM IORB
  ANDCB ANDCBI ANDCBM ANDCBB EQV EQVI EQVM EQVB SETCA SETCAI SETCAM SETCAB ORCA ORCAI ORCAM ORCAB
  SETCM SETCMI SETCMM SETCMB ORCM ORCMI ORCMM ORCMB ORCB ORCBI ORCBM ORCBB SETO SETOI SETOM SETOB
  HLL HLLI HLLM HLLS HRL HRLI HRLM HRLS HLLZ HLLZI HLLZM HLLZS HRLZ HRLZI HRLZM HRLZS
  HLLO HLLOI HLLOM HLLOS HRLO HRLOI HRLOM HRLOS HLLE HLLEI HLLEM HLLES HRLE HRLEI HRLEM HRLES
  HRR HRRI HRRM HRRS HLR HLRI HLRM HLRS HRRZ HRRZI HRRZM HRRZS HLRZ HLRZI HLRZM HLRZS
  HRRO HRROI HRROM HRROS HLRO HLROI HLROM HLROS HRRE HRREI HRREM HRRES HLRE HLREI HLREM HLRES
  TRN TLN TRNE TLNE TRNA TLNA TRNN TLNN TDN TSN TDNE TSNE TDNA TSNA TDNN TSNN
  TRZ TLZ TRZE TLZE TRZA TLZA TRZN TLZN TDZ TSZ TDZE TSZE TDZA TSZA TDZN TSZN
  TRC TLC TRCE TLCE TRCA TLCA TRCN TLCN TDC TSC TDCE TSCE TDCA TSCA TDCN TSCN
  TRO TLO TROE TLOE TROA TLOA TRON TLON TDO TSO TDOE TSOE TDOA TSOA TDON TSON
`.trim().split(/\s+/);

/** Each name of the chart with its opcode.
 * @type {Map<string, number>} */
export const OPCODES = new Map(CHART.flatMap((name, opcode) => name === "-" ? [] : [/** @type {[string, number]} */ ([name, opcode])]));

/** The statements of an assembly text that are no instructions. */
export const STATEMENTS = ["JOB", "LOC", "WORD", "SIXBIT", "GO"];

// Operations whose address is a number of its own
const SMALL = ["CAI", "TRN", "TRZ", "TRC", "TRO", "TLN", "TLZ", "TLC", "TLO", "ASH", "ROT", "LSH", ".BR"];

/** The name of an opcode, nothing if it has none.
 * @param {number} opcode */
export function nameOf(opcode) { return CHART[opcode] === "-" ? "" : CHART[opcode] || ""; }

/** A word as the assembler writes it, as LIST shows it.
 * @param {string} word 12 digits */
export function typeOut(word) {
  const name = nameOf(bits(word, 0, 8)), accumulator = bits(word, 9, 12), index = bits(word, 14, 17), address = octal(bits(word, 18, 35));
  if (!name) return "WORD " + octal(bits(word, 0, 17)) + ",," + address;
  return name + " " + (accumulator ? octal(accumulator) + "," : "") + (bits(word, 13, 13) ? "@" : "") + address + (index ? "(" + octal(index) + ")" : "");
}

/** Whether the address of an instruction is an operand, and so no address.
 * @param {string} name */
export function isImmediate(name) {
  return name.endsWith("I") && OPCODES.has(name.slice(0, -1)) || SMALL.includes(name.slice(0, 3));
}
