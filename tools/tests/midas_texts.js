// Texts in MIDAS, and what they give: for midas.test.js.

/** Texts in MIDAS, each with the same program by hand for the assembler here.
 * @type {Record<string, [string, string]>} */
export const PAIRS = {
  "literals of several words": [`
CH==1
START:	.CALL	[SETZ
		 SIXBIT /OPEN/
		 5000,,1
		 MOVEI CH
		 SETZ [SIXBIT /TTY/]]
	.BREAK	16,
	END	START
`, `
        JOB U M 0
        LOC 100
START:  .CALL BLK
        .BREAK 16,
TTY:    SIXBIT TTY
BLK:    WORD 400000,,0
        SIXBIT OPEN
        WORD 5000,,1
        WORD 201000,,1
        WORD 400000,,TTY
        GO START
`],
  "question marks, and SETZ at both ends": [`
	loc 200
go:	.call [setz ? sixbit /SIOT/ ? movei 1 ? 1 ? setz 2]
	jrst go
	end go
`, `
        JOB U M 0
        LOC 200
GO:     .CALL 202
        JRST GO
        WORD 400000000000
        SIXBIT SIOT
        WORD 201000000001
        WORD 1
        WORD 400000000002
        GO GO
`],
  "equal literals are one": [`
	loc 1000
s:	move 1,[5] ? add 1,[5.] ? sub 1,[ 5 ]
	move 2,[-1] ? and 2,[777777777777]
	move 3,[-5,,s] ? camn 3,[-5,,s]
	end s
`, `
        JOB U M 0
        LOC 1000
S:      MOVE 1,[5]
        ADD 1,[5]
        SUB 1,[5]
        MOVE 2,[777777777777]
        AND 2,[777777777777]
        MOVE 3,[777773,,S]
        CAMN 3,[777773,,S]
        GO S
`],
  "texts": [`
	LOC 300
A:	ASCIZ /Hi there; you/
	ASCII "abc"
	ASCIZ \\hello\\
	SIXBIT /two words/
	SIXBIT/dsk/
	"A ? "ab ? 'A ? 'TTY ? ^C
	.LENGTH /four/
	END A
`, `
        JOB U M 0
        LOC 300
A:      WORD 443224072320
        WORD 627454535500
        WORD 747376500000
        WORD 607054300000
        WORD 643135466336
        WORD 0
        WORD 646757006757
        WORD 624463000000
        SIXBIT DSK
        WORD 101
        WORD 30342
        WORD 41
        WORD 646471
        WORD 3
        WORD 4
        GO A
`],
  "signs, decimal numbers and halves": [`
N==20.
	LOC 400
S:	-1 ? -N ? -N,,S ? N,,-1 ? ,,S ? S,, ? 18. ? -18. ? S+1 ? S-. ? .-S
	MOVNI 1,-2 ? HRROI 2,S-1 ? MOVEI 3,N+N
	END S
`, `
        JOB U M 0
N = 24
        LOC 400
S:      WORD 777777777777
        WORD 777777777754
        WORD 777754,,S
        WORD N,,777777
        WORD 0,,S
        WORD S,,0
        WORD 22
        WORD 777777777756
        WORD 0,,401
        WORD 777777777767
        WORD 12
        MOVNI 1,777776
        HRROI 2,377
        MOVEI 3,50
        GO S
`],
  "products, shifts and brackets": [`
	LOC 500
S:	2*3+4 ? 2+3*4 ? <2+3>*4 ? 100/10 ? 7-10./3 ? 1_3 ? 1_17.-1 ? 400_-3 ? 17&14 ? 1\\6 ? 7#2 ? -6/2
	MOVEI 1,<1_5>\\1
	END S
`, `
        JOB U M 0
        LOC 500
S:      WORD 12
        WORD 16
        WORD 24
        WORD 10
        WORD 4
        WORD 10
        WORD 377777
        WORD 40
        WORD 14
        WORD 7
        WORD 5
        WORD 777777777775
        MOVEI 1,41
        GO S
`],
  "instructions of one's own": [`
P=17
CALL=PUSHJ P,
RET=<POPJ P,>
ERROR=.BREAK 16,
	LOC 600
GO:	MOVE P,[-10,,PDL-1]
	CALL SUBR
	CALL @[SUBR]
	CALL -1(P)
	ERROR
SUBR:	RET
PDL:	BLOCK 10
	END GO
`, `
        JOB U M 0
P = 17
        LOC 600
GO:     MOVE P,L1
        PUSHJ P,SUBR
        PUSHJ P,@L2
        PUSHJ P,777777(P)
        .BREAK 16,
SUBR:   POPJ P,
PDL:    LOC .+10
L1:     WORD 777770,,PDL-1
L2:     WORD 0,,SUBR
        GO GO
`],
  "constants and variables": [`
	LOC 100
S:	MOVE 1,[123]
	MOVEM 1,X'
	AOS Y'
	CONSTANTS
	VARIABLES
Z1:	MOVE 2,[456]
	SOS X
	END S
`, `
        JOB U M 0
        LOC 100
S:      MOVE 1,A
        MOVEM 1,X
        AOS Y
A:      WORD 123
X:      WORD 0
Y:      WORD 0
Z1:     MOVE 2,[456]
        SOS X
        GO S
`],
  "the location in a literal is that of its user": [`
	LOC 100
S:	JUMPE 1,[MOVEI 1,5 ? JRST .+1]
	SKIPN 2
	 JRST .-1
	JRST @[.+1]
	END S
`, `
        JOB U M 0
        LOC 100
S:      JUMPE 1,104
        SKIPN 2
        JRST 101
        JRST @106
        MOVEI 1,5
        JRST 101
        WORD 104
        GO S
`],
  "parentheses change the halves": [`
A=1
	LOC 100
S:	MOVE A,2(A) ? MOVE A,@S(17) ? TLNE A,(SETZ) ? MOVSI A,(SIXBIT /DSK/) ? (A) ? S(A) ? @S ? MOVEI A((SETZ)) ? JRST @(A)
	END S
`, `
        JOB U M 0
        LOC 100
S:      MOVE 1,2(1)
        MOVE 1,@S(17)
        TLNE 1,400000
        MOVSI 1,446353
        WORD 1,,0
        WORD 1,,S
        WORD 20,,S
        WORD 601000,,1
        JRST @0(1)
        GO S
`],
  "symbols of other letters, long ones, and ones that change": [`
%ONE==1
$TWO=:2
.THREE==:3
LONGLABEL:
N=5
	MOVEI %ONE,N
N=N+1
	MOVEI $TWO,N
	JRST LONGLA
LOW:low1:	movei .three,Low+LOW1
	END LONGLABEL
`, `
        JOB U M 0
        LOC 100
S:      MOVEI 1,5
        MOVEI 2,6
        JRST S
L:      MOVEI 3,206
        GO S
`],
  "other names of instructions": [`
	LOC 100
S:	OR 1,2 ? ORI 1,2 ? ORM 1,2 ? CLEARM 5 ? CLEARB 1,5 ? JRSTF @S ? HALT ? JOV S ? JCRY S ? JCRY0 S ? JCRY1 S ? HALT S
	END S
`, `
        JOB U M 0
        LOC 100
S:      IOR 1,2
        IORI 1,2
        IORM 1,2
        SETZM 5
        SETZB 1,5
        JRST 2,@S
        JRST 4,
        JFCL 10,S
        JFCL 6,S
        JFCL 4,S
        JFCL 2,S
        JRST 4,S
        GO S
`],
};

/** Texts in MIDAS with the words that the manuals give, in octal: from 100 on, if the text says nothing else; `-` is an address without a word.
 * @type {Record<string, [string, string]>} */
export const BY_HAND = {
  "an instruction each": ["S: MOVEI 1,5 ? MOVEM 1,200 ? MOVE 2,@100(3) ? .CALL 120 ? .IOT 2,3 ? .BREAK 16,\n END S\n",
    "201040000005 202040000200 200123000100 043000000120 040100000003 045700000000"],
  "a block of LOGOUT": ["S: .CALL [SETZ ? SIXBIT /LOGOUT/ ? 405000,,0]\n END S\n",
    "043000000101 400000000000 545747576564 405000000000"],
  "a call of SLEEP": ["S: .CALL B ? .BREAK 16,\nB: SETZ ? SIXBIT /SLEEP/ ? SETZ T\nT: 30.\n END S\n",
    "043000000102 045700000000 400000000000 635445456000 400000000105 000000000036"],
  "an error address": ["S: .CALL [SETZ ? SIXBIT /CLOSE/ ? 1000,,1 ? SETZB 220]\n END S\n",
    "043000000101 400000000000 435457634500 001000000001 403000000220"],
  "a byte pointer": ["S: 440700,,1000 ? ASCII /abc/\n END S\n",
    "440700001000 607054300000"],
  "SETZ": ["S: SETZ ? SETZ S ? SETZ 1,S ? SETZI 5 ? SETZM 6\n END S\n",
    "400000000000 400000000100 400040000100 401000000005 402000000006"],
  "lower case and tabs": ["s:\tmovei\t1,5\t; five\n\tmovem\t1,200\n\tend\ts\n",
    "201040000005 202040000200"],
  "a text of several lines": ["S: ASCIZ /A\nB/\n END S\n",
    "404321241000"],
  "carriage returns": ["S: MOVEI 1,5\r\n MOVEM 1,200\r\n END S\r\n",
    "201040000005 202040000200"],
  "a block of words": ["S: 1\nB: BLOCK 2\n 3\n END S\n",
    "000000000001 - - 000000000003"],
  "a literal of literals": ["S: MOVE 1,[440700,,[ASCIZ /abc/]]\n END S\n",
    "200040000102 607054300000 440700000101"],
  "END with a label": ["S: MOVE 1,[E] ? CONSTANTS\nE: END .-2\n",
    "200040000101 000000000102"],
  "zeros": ["S: MOVE 0+0,0 ? MOVE 0*5,0-0\n END S\n",
    "200000000000 200000000000"],
  "lines that mean nothing": [" TITLE X Y'Z\n SUBTTL \"it\n .MLLIT==1\n .SYMTAB 100,100\n .SEE S\nS: 1\n END S\nmore [\n",
    "1"],
  "a place before its definition": ["L==E-S\nS: MOVEI 1,L ? MOVEI 2,E\nE: END S\n",
    "201040000002 201100000102"],
};
