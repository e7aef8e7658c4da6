// tools/midas: macros, conditions, repeats, inserted files, and the calls of ITS that are others here.

import assert from "node:assert";
import fs from "node:fs";
import os from "node:os";
import path from "node:path";
import {spawnSync} from "node:child_process";
import {test} from "node:test";

import {translate} from "../lib/midas/translate.js";
import {Refused} from "../lib/midas/tree.js";
import {TOP, atHand, run} from "../lib/node/program.js";

const PROGRAM = atHand();
const SYSCAL = `
DEFINE SYSCAL NAME,ARGS
	.CALL [SETZ ? SIXBIT/NAME/ ? ARGS ((SETZ))]
TERMIN
`;

// Texts, each with another one that gives the same words.
const SAME = {
  "the usual SYSCAL": [SYSCAL + `
CH==1
S:	SYSCAL OPEN,[%CLBTW,,.UAO ? %CLIMM,,CH ? [SIXBIT/TTY/]]
	 .VALUE
	SYSCAL SIOT,[%CLIMM,,CH ? 1 ? 2]
	 .LOGOUT 1,
	SYSCAL SLEEP,[[30.]]	; a second
	 .LOGOUT
	END S`, `
S:	.CALL [SETZ ? SIXBIT/OPEN/ ? 5000,,1 ? 1000,,1 ? SETZ [SIXBIT/TTY/]]
	.BREAK 16,
	.CALL [SETZ ? SIXBIT/SIOT/ ? 1000,,1 ? 1 ? SETZ 2]
	.CALL [SETZ ? SIXBIT/LOGOUT/ ? 405000,,0]
	.CALL [SETZ ? SIXBIT/SLEEP/ ? SETZ [30.]]
	.CALL [SETZ ? SIXBIT/LOGOUT/ ? 405000,,0]
	END S`],
  "dummies in names, defaults, and arguments that are left out": [`
DEFINE GIVE PRE,VAL=77,WORD=[1,,2]
PRE!X:	VAL
	WORD
TERMIN
S:	GIVE A,5,[3,,4]
	GIVE B
	GIVE C,,7
	GIVE D,[],10
	END S`, `
S:	5 ? 3,,4 ? 77 ? 1,,2 ? 77 ? 7
	10
	END S`],
  "a macro in a macro, in a literal, in parentheses and in an expression": [`
DEFINE TWICE X
<X>+<X>TERMIN
DEFINE PAIR A,B
	TWICE A
	TWICE [B]
TERMIN
S:	PAIR 1,[2+3] ; both
	MOVE 1,[PAIR 4,5]
	TWICE(6)
	MOVEI 2,TWICE 7
	[TWICE 3 ? TWICE 4]
	END S`, `
S:	2 ? 12 ? MOVE 1,[10 ? 12] ? 14 ? MOVEI 2,16 ? [6 ? 10]
	END S`],
  "a macro without dummies takes nothing": ["DEFINE CALL\nPUSHJ 17,TERMIN\nS: CALL S\n CALL S+1\n END S", "S: PUSHJ 17,S\n PUSHJ 17,S+1\n END S"],
  "a macro is given another text later": ["DEFINE M\n1\nTERMIN\nS: M\nDEFINE M\n2\nTERMIN\n M\n END S", "S: 1 ? 2\n END S"],
  "a macro that defines a macro": [`
DEFINE MAKE NAME,VALUE
DEFINE NAME
	VALUE
TERMIN
TERMIN
	MAKE FIVE,5
S:	FIVE
	END S`, "S: 5\n END S"],
  "numbers decide": [`
X==3
S:	IFE X,1
	IFN X,2 ; this
	IFG X,[3
	4]
	IFL X,5
	IFGE X-3,6
	IFLE X-3,[7 ? ]
	IFN X-3,[20 ? [] 21
] .ELSE [10
]	.ALSO 11
	IFE X-3,12 ? 13
	.ALSO 14
	.ELSE 15
	END S`, "S: 2 ? 3 ? 4 ? 6 ? 7 ? 10 ? 12 ? 13 ? 14\n END S"],
  "places decide": ["S: 1 ? 2\nE: IFE E-S-2,[3\n] IFE .-103,4\n IFG .-1000,5\n END S", "S: 1 ? 2 ? 3 ? 4\n END S"],
  "names and texts decide": [`
X==0
DEFINE M A,B
	IFB [A],1
	IFNB A,2
	IFSE A,B,3
	IFSN [A],[B],[4
]	IFDEF A,5
	IFNDEF A,6
TERMIN
S:	M
	M X,x
	M MOVE,Y
	M Q,
	END S`, "S: 1 ? 3 ? 6 ? 2 ? 3 ? 5 ? 2 ? 4 ? 5 ? 2 ? 4 ? 6\n END S"],
  "a condition in a condition keeps to itself": [`
S:	IFE 1,[IFE 0,[1
]
] .ELSE 2
	IFE 0,[IFE 1,[3
]
	4
] .ELSE 5
	END S`, "S: 2 ? 4\n END S"],
  "conditions in a literal and in an operand": ["X==1\nS: MOVE 1,[IFN X,[5 ? ] IFE X,[6 ? ] 7]\n MOVEI 2,IFN X,[3] .ELSE [4]\n END S",
                                                "S: MOVE 1,[5 ? 7]\n MOVEI 2,3\n END S"],
  "passes": [`
IF1 [
DEFINE M
	5
TERMIN
]
IF1,X==1	; a symbol
.ELSE Y==2
IF2 [Z==3
]
S:	M
	X ? Y ? Z
	END S`, "S: 5 ? 1 ? 2 ? 3\n END S"],
  repeats: [`
N==3
S:	REPEAT N,[ .RPCNT
]	REPEAT 2,7
	REPEAT 0,[8
]	REPEAT 2,[	REPEAT 2,[.RPCNT ? ;two
]	.RPCNT
]	END S`, "S: 0 ? 1 ? 2 ? 7 ? 7 ? 0 ? 1 ? 0 ? 0 ? 1 ? 1\n END S"],
  "values that a macro changes": ["N==0\nDEFINE NEXT\nN\nN==N+1\nTERMIN\nS: NEXT\n NEXT\n NEXT\n END S", "S: 0 ? 1 ? 2\n END S"],
};

// What is refused: the text, the line and the column from 1, and words of the cause.
const REFUSED = [
  ["DEFINE M A\nFOO A\nTERMIN\nS: M 5\n END S\n", 4, 4, "FOO is neither an instruction nor a symbol of this text; in line 1 of the macro M"],
  ["DEFINE M A\n1\nTERMIN\nS: M 5,6\n END S\n", 4, 4, "M takes 1 argument, and more are here"],
  ["DEFINE M A\n1\nTERMIN\nS: M [5]6\n END S\n", 4, 9, "6 is left over"],
  ["DEFINE M A\n1\nTERMIN\nS: M [5\n END S\n", 4, 6, "no ]"],
  ["DEFINE M /A\n1\nTERMIN\n", 1, 10, "/ is not understood"],
  ["DEFINE M\nM\nTERMIN\nS: M\n END S\n", 4, 4, "gives text without end"],
  ["DEFINE MOVE\nTERMIN\n", 1, 1, "a name of MIDAS"],
  ["S: 1\nDEFINE S\nTERMIN\n", 2, 1, "S is defined already"],
  ["DEFINE M\n1\nTERMIN\nM: 1\n", 4, 1, "M is a macro"],
  ["DEFINE M\n1\nTERMIN\nM=1\n", 4, 1, "M is a macro"],
  ["DEFINE ?\n", 1, 8, "the name of a macro"],
  ["S: TERMIN\n", 1, 4, "no DEFINE"],
  ["S: IFE 0\n 1\n", 1, 9, "a comma is wanted"],
  ["S: IFSE A,B\n", 1, 12, "a comma is wanted"],
  ["S: IFN 1,[5\n END S\n", 1, 10, "no ]"],
  ["S: IFN L,5\nL: END S\n", 1, 8, "L is not known here"],
  ["S: CONSTANTS\nL: IFN L,5\n END S\n", 2, 8, "L is not known here"],
  ["S: .ELSE 5\n END S\n", 1, 4, "no condition"],
  ["IF1 S: 5\n", 1, 8, "one pass of MIDAS"],
  ["IF2 [\n 5\n]\n", 2, 2, "one pass of MIDAS"],
  ["S: REPEAT 3,[5]\n END S\n", 1, 4, "end its line"],
  ["S: REPEAT -1,5\n END S\n", 1, 4, "count of 0 to"],
  ["S: REPEAT 1000000,[REPEAT 1000000,[\n]\n]\n END S\n", 1, 36, "without end"],
  ["S: IRP X,,[A]\n", 1, 4, "IRP"],
  ["S: .BEGIN\n", 1, 4, "blocks of symbols"],
  [" .INSRT\n", 1, 8, "the name of a file"],
  ["S: .VALUE [ASCIZ /:KILL /]\n END S\n", 1, 4, ".VALUE alone"],
  ["S: .SUSET [.RPC,,1]\n END S\n", 1, 4, "docs/MIDAS.md"],
  ["S: 1\n 2\nDEFINE M\n LOC S\n 3\nTERMIN\n M\n END S\n", 7, 2, "100 gets a second word; line 1 (octal 1) gave it one; in line 2 of the macro M"],
];

const made = (source, insert) => translate(source, "test.mid", undefined, insert);

// What refuses a text.
function refusalOf(source, insert) {
  try {
    made(source, insert);
  } catch (problem) {
    if (problem instanceof Refused) return problem;
    throw problem;
  }
  throw new assert.AssertionError({message: "not refused: " + source});
}

// The words of a text.
const imageOf = one => ({words: [...one.words], start: one.start});

test("texts give the same words as others", () => {
  for (const [name, [source, other]] of Object.entries(SAME)) {
    const one = made(source);
    assert.deepStrictEqual(imageOf(one), imageOf(made(other)), name + "\n" + one.text);
    if (PROGRAM) assert.strictEqual(run([PROGRAM, "asm"], one.text).status, 0, one.text);
  }
});

test("what is refused", () => {
  for (const [source, line, column, cause] of REFUSED) {
    const problem = refusalOf(source);
    assert.ok(problem.cause.includes(cause), source + ": " + problem.cause);
    assert.deepStrictEqual([problem.at.line, problem.at.column], [line, column], source + ": " + problem.cause);
  }
});

test("the text says what pieces gave its lines", () => {
  const {text} = made(SYSCAL + "S: SYSCAL HANG,[5000,,0] ; for ever\n IFN 0,[5\n]\n .VALUE\n .LOGOUT\n END S\n");
  for (const line of ["; DEFINE SYSCAL NAME,ARGS ..", "; SYSCAL HANG,[5000,,0] ; for ever", "; IFN 0 does not hold, and is left out",
                      "        .BREAK 16,              ; .VALUE", "        .CALL LIT2              ; .LOGOUT"]) {
    assert.ok(text.includes("\n" + line + "\n"), line + "\n" + text);
  }
  assert.ok(text.includes("\nS:      .CALL LIT1              ; .CALL [SETZ ? SIXBIT/HANG/ ? 5000,,0 ((SE ..\n"), text);
});

test("files that are inserted", () => {
  const files = {"a.mid": "A==5\r\n\t.INSRT b.mid\n", "b.mid": "B==6\n", "loop.mid": "\t.INSRT loop.mid\n", "bad.mid": "X==1\nS: FOO\n"};
  const asked = [];
  const insert = (name, beside) => {
    asked.push([name, beside]);
    return name in files ? {name, text: files[name]} : null;
  };
  assert.deepStrictEqual(imageOf(made("\t.INSRT a.mid ; both\nS: A ? B\n END S\n", insert)), imageOf(made("S: 5 ? 6\n END S\n")));
  assert.deepStrictEqual(asked, [["a.mid", ""], ["b.mid", "a.mid"]]);
  const bad = refusalOf("S2: 1\n .INSRT bad.mid\n END S\n", insert);
  assert.deepStrictEqual([bad.at.file, bad.at.line, bad.at.column], ["bad.mid", 2, 4]);
  assert.match(refusalOf(" .INSRT loop.mid\n", insert).cause, /without end/);
  assert.match(refusalOf("X: 1\n .INSRT c.mid\n", insert).cause, /c.mid is not there/);
  assert.match(refusalOf("A: 1\n .INSRT a.mid\n END A\n", insert).cause, /A is defined already, in line 1 \(octal 1\)$/);
  assert.match(refusalOf(" .INSRT a.mid\nA: 1\n END A\n", insert).cause, /A is defined already, in line 1 \(octal 1\) of a.mid$/);
});

test("the command reads a file beside the text, and says its name", () => {
  const folder = fs.mkdtempSync(path.join(os.tmpdir(), "midas-")), file = path.join(folder, "main.mid");
  fs.writeFileSync(path.join(folder, "own.mid"), "X==1\nY==MOVEE\n");
  fs.writeFileSync(file, "\t.INSRT own.mid\nS: END S\n");
  const refused = spawnSync(path.join(TOP, "tools", "midas"), [file]);
  fs.writeFileSync(path.join(folder, "own.mid"), "X==1\n");
  const done = spawnSync(path.join(TOP, "tools", "midas"), [file]);
  fs.rmSync(folder, {recursive: true});
  assert.deepStrictEqual([refused.status, refused.stdout.toString(), done.status], [1, "", 0]);
  assert.match(refused.stderr.toString(), /own\.mid, line 2 \(octal 2\), column 4: MOVEE is neither .*\n  Y==MOVEE\n     \^\n$/);
  assert.ok(done.stdout.toString().includes("X = 1"));
});
