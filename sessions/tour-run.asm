; The source of the job of the tour: it reads three bytes at its console by one SIOT, repeats them by another, and begins again.
        JOB U E 0
P = 1                           ; the pointer of a SIOT
N = 2                           ; and its count
        LOC 100
START:  .CALL OPENI             ; a call that succeeds skips the instruction after it
        .BREAK 16,
        .CALL OPENO
        .BREAK 16,
LOOP:   MOVE P,POINT
        MOVEI N,3
        .CALL READ
        .BREAK 16,
        MOVE P,POINT
        MOVEI N,3
        .CALL REPEAT
        .BREAK 16,
        JRST LOOP
; The blocks of the calls: their names in SIXBIT, and their arguments
        LOC 140
OPENI:  WORD 400000,,0
        SIXBIT OPEN
        WORD 1000,,1            ; channel 1, for input
        WORD 400000,,TTY
        LOC 150
OPENO:  WORD 400000,,0
        SIXBIT OPEN
        WORD 5000,,1            ; for output
        WORD 1000,,2            ; channel 2
        WORD 400000,,TTY
READ:   WORD 400000,,0
        SIXBIT SIOT
        WORD 1000,,1
        WORD 0,,P
        WORD 400000,,N
REPEAT: WORD 400000,,0
        SIXBIT SIOT
        WORD 1000,,2
        WORD 0,,P
        WORD 400000,,N
        LOC 170
POINT:  WORD 440700,,1000       ; before the first byte of 1000, in bytes of 7 bits
TTY:    SIXBIT TTY
        GO START
