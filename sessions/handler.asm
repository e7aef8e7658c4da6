; The source of the image in handler.its: a job that hangs in a call, and an interrupt handler that counts.
        JOB U J -
P = 17                          ; the stack pointer of interrupts
BIT = 1000                      ; the kind of interrupt that it takes
        LOC P
        WORD 777700,,500         ; 100 words from 501 on
        LOC 42
        WORD 777772,,TSINT      ; the table of interrupts has 6 words
        LOC 60
TSINT:  WORD 0,,P
        WORD 0,,BIT             ; the bits of the two pending words that are taken
        WORD 0
        WORD 0,,BIT             ; those that are deferred while the handler runs
        WORD 0
        WORD 0,,HANDLE
        LOC 100
START:  .CALL SETM              ; let the kind interrupt
        .BREAK 16,
        .CALL HANG              ; and hang for ever
        .BREAK 16,
        LOC 120
SETM:   WORD 400000,,0
        SIXBIT USRVAR
        WORD 1000,,777777       ; of the job itself
        WORD 0,,MASK
        WORD 401000,,BIT
        LOC 130
MASK:   SIXBIT MASK
        LOC 140
HANG:   WORD 400000,,0
        SIXBIT HANG
        WORD 405000,,0
        LOC 200
COUNT:  WORD 0
        LOC 300
HANDLE: AOS COUNT
        .CALL DIS               ; back to the interrupted place
        LOC 320
DIS:    WORD 400000,,0
        SIXBIT DISMIS
        WORD 400000,,P
        GO START
