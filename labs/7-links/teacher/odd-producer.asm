; For those who teach, of task 7: words of which two are also what .IOT gives at an end.
        JOB U SENDER -
        LOC 100
START:  .CALL OPENL
        .BREAK 16,
        .CALL SEND
        .BREAK 16,
        .CALL SHUT
        .BREAK 16,
        .BREAK 16,
OPENL:  WORD 400000,,0
        SIXBIT OPEN
        WORD 5000,,1            ; the writing end
        WORD 1000,,1
        WORD 0,,LNK
        WORD 400000,,NAME
SEND:   WORD 400000,,0
        SIXBIT SIOT
        WORD 1000,,1
        WORD 0,,POINT
        WORD 400000,,COUNT
SHUT:   WORD 400000,,0
        SIXBIT CLOSE
        WORD 401000,,1
LNK:    SIXBIT LNK
NAME:   SIXBIT IN
POINT:  WORD 444400,,DATA
COUNT:  WORD 4
DATA:   WORD 777777,,3
        WORD 5
        WORD 777777,,3
        WORD 4
        GO START
