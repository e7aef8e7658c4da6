; For those who teach: a wrong solution of task 1. The count is one too small.
; Fails: the output ends after 4 of 5 bytes
        JOB U CALL 0
        LOC 100
START:  .CALL OPENO             ; a call that succeeds skips the instruction after it
        .BREAK 16,
        .CALL PUT
        .BREAK 16,
        .BREAK 16,              ; all is put out
OPENO:  WORD 400000,,0
        SIXBIT OPEN
        WORD 5000,,1            ; for output
        WORD 1000,,1            ; channel 1
        WORD 0,,TTY
        WORD 403000,,ERR
PUT:    WORD 400000,,0
        SIXBIT SIOT
        WORD 1000,,1
        WORD 0,,POINT
        WORD 0,,COUNT
        WORD 403000,,ERR
TTY:    SIXBIT TTY
POINT:  WORD 440700,,TEXT       ; before the first byte
COUNT:  WORD 4
TEXT:   WORD 442131,,446236     ; HELLO in five bytes of 7 bits
ERR:    WORD 0
        GO START
