; Of task 7: it opens the link OUT, sends one word through the link DONE, and takes up to 20 (octal) words of OUT until its end. GOT is how
; many came, WORDS the first of them.
        JOB U TAKER -
        LOC 100
START:  .CALL OPENO
        .BREAK 16,
        .CALL OPEND
        .BREAK 16,
        .IOT 2,[1]
        .CALL TAKE
        .BREAK 16,
        MOVEI 1,20
        SUB 1,COUNT
        MOVEM 1,GOT
        .BREAK 16,
OPENO:  WORD 400000,,0
        SIXBIT OPEN
        WORD 1000,,1
        WORD 0,,LNK
        WORD 400000,,NAMEO
OPEND:  WORD 400000,,0
        SIXBIT OPEN
        WORD 5000,,1
        WORD 1000,,2
        WORD 0,,LNK
        WORD 400000,,NAMED
TAKE:   WORD 400000,,0
        SIXBIT SIOT
        WORD 1000,,1
        WORD 0,,POINT
        WORD 400000,,COUNT
LNK:    SIXBIT LNK
NAMEO:  SIXBIT OUT
NAMED:  SIXBIT DONE
POINT:  WORD 444400,,WORDS
COUNT:  WORD 20
GOT:    WORD 777777,,777777
WORDS:  LOC .+20
        GO START
