; Task 6: a superior that loads an inferior, plants breakpoints in it, and looks at it.
        JOB U DDT -
INF = 1                         ; the channel on the inferior
FIL = 2                         ; the channel that reads the file PROG BIN of directory LAB
        LOC 100
START:  .CALL NEW
        .BREAK 16,
        .CALL PAGE
        .BREAK 16,
        .BREAK 16,              ; put your program in the place of this line
NEW:    WORD 400000,,0
        SIXBIT OPEN
        WORD 5000,,1            ; to write
        WORD 1000,,INF
        WORD 0,,USR
        WORD 0,,UNAME
        WORD 400000,,JNAME
PAGE:   WORD 400000,,0          ; page 0 of the inferior
        SIXBIT CORBLK
        WORD 1000,,1
        WORD 1000,,INF
        WORD 401000,,0
USR:    SIXBIT USR
UNAME:  SIXBIT U
JNAME:  SIXBIT PROG
BREAKS: WORD 102                ; the two addresses for breakpoints
        WORD 103
SEEN:   WORD 0                  ; accumulator 1 of the inferior at both, and at its end
        WORD 0
        WORD 0
        GO START
