; The source of the image in echo.its: a job that repeats on its console what is typed there.
        JOB U E 0
AC = 3                          ; the byte passes through it
TTYI = 1                        ; the channel for input
TTYO = 2                        ; and that for output
        LOC 1000
START:  .CALL OPENI             ; a call skips the instruction after it if it succeeds
        .BREAK 16,
        .CALL OPENO
        .BREAK 16,
LOOP:   .IOT TTYI,AC            ; take a byte, and put it out, for ever
        .IOT TTYO,AC
        JRST LOOP
        LOC 1020
; OPEN of the channel for input: there is no control argument. 400000 marks the last word of a block.
OPENI:  WORD 400000,,0
        SIXBIT OPEN
        WORD 1000,,TTYI
        WORD 400000,,TTY
        LOC 1030
; OPEN of the channel for output: the control argument is 1.
OPENO:  WORD 400000,,0
        SIXBIT OPEN
        WORD 5000,,1
        WORD 1000,,TTYO
        WORD 400000,,TTY
        LOC 1050
TTY:    SIXBIT TTY              ; the device
        GO START
