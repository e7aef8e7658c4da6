; For those who teach: a wrong solution of task 7. OUT is opened for reading.
; Fails: GOT
        JOB U FILTER -
IN = 1                          ; the reading end of the link IN
OUT = 2                         ; the writing end of the link OUT
DONE = 3                        ; the reading end of the link DONE
        LOC 100
START:  .CALL OPENI
        .BREAK 16,
        .CALL OPENO
        .BREAK 16,
        .CALL OPEND
        .BREAK 16,
NEXT:   MOVE 1,[444400,,WORD]
        MOVEM 1,POINT
        MOVEI 1,1
        MOVEM 1,COUNT
        .CALL TAKE
        .BREAK 16,
        SKIPE COUNT             ; no word came: that is the end
        JRST SHUT
        MOVE 1,WORD
        ADDM 1,SUM
        .IOT OUT,SUM
        JRST NEXT
SHUT:   .IOT DONE,WORD          ; until the consumer is there
        .CALL CLOSE
        .BREAK 16,
        .BREAK 16,
OPENI:  WORD 400000,,0
        SIXBIT OPEN
        WORD 1000,,IN
        WORD 0,,LNK
        WORD 0,,NAMEI
        WORD 403000,,ERR
OPENO:  WORD 400000,,0
        SIXBIT OPEN
        WORD 1000,,OUT
        WORD 0,,LNK
        WORD 0,,NAMEO
        WORD 403000,,ERR
OPEND:  WORD 400000,,0
        SIXBIT OPEN
        WORD 1000,,DONE
        WORD 0,,LNK
        WORD 0,,NAMED
        WORD 403000,,ERR
TAKE:   WORD 400000,,0
        SIXBIT SIOT
        WORD 1000,,IN
        WORD 0,,POINT
        WORD 0,,COUNT
        WORD 403000,,ERR
CLOSE:  WORD 400000,,0
        SIXBIT CLOSE
        WORD 1000,,OUT
        WORD 403000,,ERR
LNK:    SIXBIT LNK
NAMEI:  SIXBIT IN
NAMEO:  SIXBIT OUT
NAMED:  SIXBIT DONE
POINT:  WORD 0
COUNT:  WORD 0
WORD:   WORD 0
SUM:    WORD 0
ERR:    WORD 0
        GO START
