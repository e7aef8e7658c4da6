// All mistakes of an assembly text: tools/lib/mistakes.js, and that the page's worker and the commands find the same.

import assert from "node:assert";
import {test} from "node:test";

import {mistakesIn, toldMistakes} from "../lib/mistakes.js";
import {answer} from "./shared.js";

const HEAD = "JOB U J -\nLOC 100\n", asm = text => answer("asm", text);
const LOWER = "lower case in the name 'hello': write HELLO";

// A text, and of each mistake its line, its reason and words of its cause.
const TEXTS = [
  [HEAD + "GO 100\n", []],
  [HEAD + "MVOE 1,5\nMOVEI 1,18\nGO 100\n", [[3, "SYNTAX", "is it MOVE"], [4, "SYNTAX", "the digit 8"]]],
  [HEAD + "PNAME: SIXBIT hello\nMOVE 1,PNAME\nMOVE 2,NONE\nGO 100\n",
   [[3, "SYNTAX", LOWER], [4, "UNDEF", "PNAME: its line 3 (octal 3) is refused, because " + LOWER], [5, "UNDEF", "the symbol NONE is not defined"]]],
  [HEAD + "X=5\nY = X\nMOVE 1,Y\nGO 100\n",
   [[3, "SYNTAX", "a blank belongs on both sides"], [4, "UNDEF", "X: its line 3 (octal 3) is refused, because a blank belongs"],
    [5, "UNDEF", "Y: its line 4 (octal 4) is refused, because X: its line 3"]]],
  [HEAD + "MOVE 20,5\nMOVE 1,5(20)\nGO 100\n", [[3, "RANGE", "an accumulator is"], [4, "RANGE", "an index register is"]]],
  ["LOC 100\nMOVEI 1,8\nGO 100\n", [[1, "SYNTAX", "the first statement has to be JOB"], [2, "SYNTAX", "the digit 8"]]],
  ["JOB U J 9\nMOVEI 1,8\nGO 100\n", [[1, "SYNTAX", "the console is 0 to 7"], [2, "SYNTAX", "the digit 8"]]],
  [HEAD + "MOVEI 1,8\n", [[3, "SYNTAX", "the digit 8"], [4, "CUT", "the text ends without GO"]]],
  [HEAD + "MOVEI 1,8\nGO\n", [[3, "SYNTAX", "the digit 8"], [4, "SYNTAX", "an operand is missing"]]],
  [HEAD + "GO 100\nMOVE 1,2\nMOVE 1,2\n", [[4, "SYNTAX", "GO ended the text in line 3"]]],
  [HEAD + "WORD 1\nLOC 100\nWORD 2\nWORD 8\nGO 100\n", [[5, "TWICE", "the location 100 has a word already"], [6, "SYNTAX", "the digit 8"]]],
  [HEAD + "LOC 777777\nWORD 1\nWORD 2\nWORD 3\nGO 100\n", [[5, "RANGE", "past the last address"]]],
  [HEAD + "X = 1\nX = 2\nMOVE 1,X\nGO 100\n", [[4, "TWICE", "the symbol X is defined in line 3"]]],
  ["", [[1, "CUT", "the text has no statement"]]],
];

for (const [text, wanted] of TEXTS) {
  test("The mistakes of " + JSON.stringify(text), () => {
    const found = toldMistakes(text, mistakesIn(text, asm));
    assert.deepStrictEqual(found.map(({line, refused}, at) => [line, refused.reason, refused.cause.includes((wanted[at] || [])[2]) ? wanted[at][2] : refused.cause]),
                           wanted);
  });
}
