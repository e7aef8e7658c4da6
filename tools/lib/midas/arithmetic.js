// Shared by the page and the commands: arithmetic of words of 36 bits, which are whole numbers from 0.

import {ADDRESSES, WORD, WORDS} from "./tree.js";

/** A whole number, modulo the number of words.
 * @param {number} whole */
export function wrapped(whole) { return (whole % WORDS + WORDS) % WORDS; }

/** The right half of a word.
 * @param {number} word */
export function rightHalf(word) { return word % ADDRESSES; }

/** The left half of a word.
 * @param {number} word */
export function leftHalf(word) { return Math.floor(word / ADDRESSES); }

/** A word by its halves.
 * @param {number} left
 * @param {number} right */
export function halves(left, right) { return rightHalf(left) * ADDRESSES + rightHalf(right); }

/** A word with its halves in the other order.
 * @param {number} word */
export function swapped(word) { return halves(rightHalf(word), leftHalf(word)); }

/** A word as a number with its sign.
 * @param {number} word */
export function signed(word) { return word > (WORD - 1) / 2 ? word - WORDS : word; }

/** A product of numbers with signs.
 * @param {number} left
 * @param {number} right */
function product(left, right) { return Number(BigInt.asUintN(36, BigInt(signed(left)) * BigInt(signed(right)))); }

/** A quotient of numbers with signs, without its fraction.
 * @param {number} left
 * @param {number} right */
function quotient(left, right) { return wrapped(Math.trunc(signed(left) / signed(right))); }

/** A word shifted to the left, or to the right by a negative number.
 * @param {number} left
 * @param {number} right */
function shifted(left, right) {
  const by = Math.max(Math.min(signed(right), 36), -36);
  return by >= 0 ? Number(BigInt.asUintN(36, BigInt(left) << BigInt(by))) : Math.floor(left / 2 ** -by);
}

/** What each operator gives.
 * @type {Record<string, (left: number, right: number) => number>} */
export const OPERATORS = {
  "+": (left, right) => wrapped(left + right),
  "-": (left, right) => wrapped(left - right),
  "*": product,
  "/": quotient,
  "&": (left, right) => Number(BigInt(left) & BigInt(right)),
  "#": (left, right) => Number(BigInt(left) ^ BigInt(right)),
  "\\": (left, right) => Number(BigInt(left) | BigInt(right)),
  _: shifted};
