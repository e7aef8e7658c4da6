; Task 2: lines that are typed, in capital letters.
        JOB U BYTES 0
CH = 1                          ; a byte
N = 2                           ; how many bytes the line has
P = 3                           ; a byte pointer
TTYI = 1
TTYO = 2
        LOC 100
START:  .CALL OPENI             ; a call that succeeds skips the instruction after it
        .BREAK 16,
        .CALL OPENO
        .BREAK 16,
        .BREAK 16,              ; put your program in the place of this line
OPENI:  WORD 400000,,0
        SIXBIT OPEN
        WORD 1000,,TTYI
        WORD 0,,TTY
        WORD 403000,,ERR
OPENO:  WORD 400000,,0
        SIXBIT OPEN
        WORD 5000,,1            ; for output
        WORD 1000,,TTYO
        WORD 0,,TTY
        WORD 403000,,ERR
TTY:    SIXBIT TTY
ERR:    WORD 0
POINT:  WORD 440700,,BUF        ; before the first byte of BUF
COUNT:  WORD 0
BUF:    LOC .+20
        GO START
