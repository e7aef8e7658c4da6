; Task 3: a program that is begun anew at any moment.
        JOB U AGAIN 0
P = 17                          ; the stack pointer of interrupts
H = 16                          ; the accumulator of the handler; the program may not use it
BIT = 1000                      ; the interrupt that begins the program anew
TTYO = 1
        LOC P
        WORD 777700,,500
        LOC 42
        WORD 777772,,TSINT
        LOC 60
TSINT:  WORD 0,,P
        WORD 0,,BIT
        WORD 0
        WORD 0,,BIT
        WORD 0
        WORD 0,,HANDLE
        LOC 100
START:  .CALL OPENO
        .BREAK 16,
        .CALL SETM              ; from here on the interrupt is taken
        .BREAK 16,
AGAIN:  .BREAK 16,              ; put your program in the place of this line
; The handler: it puts AGAIN in the place of the interrupted PC, and returns.
HANDLE: MOVEI H,AGAIN
        HRRM H,(P)
        .CALL DIS
        .BREAK 16,
OPENO:  WORD 400000,,0
        SIXBIT OPEN
        WORD 5000,,1            ; for output
        WORD 1000,,TTYO
        WORD 0,,TTY
        WORD 403000,,ERR
SETM:   WORD 400000,,0
        SIXBIT USRVAR
        WORD 1000,,777777       ; of the job itself
        WORD 0,,MASK
        WORD 401000,,BIT
DIS:    WORD 400000,,0
        SIXBIT DISMIS
        WORD 400000,,P
TTY:    SIXBIT TTY
MASK:   SIXBIT MASK
ERR:    WORD 0
TABLE:  WORD 1
        WORD 2
        WORD 4
SUM:    WORD 0
TEXT:   WORD 476350,,342400     ; ONCE, four bytes of 7 bits
        GO START
