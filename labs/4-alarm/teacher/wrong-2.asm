; For those who teach: a wrong solution of task 4. The mask is not set, so that no alarm interrupts.
; Fails: The mask of the job has to have the bit ALR
        JOB U ALARM 0
CH = 1                          ; the byte of the program
P = 17                          ; the stack pointer of interrupts
ALR = 400                       ; the bit of alarms
TTYI = 1
TTYO = 2
        LOC P
        WORD 777700,,500
        LOC 42
        WORD 777772,,TSINT      ; minus 6, and the table
        LOC 60
TSINT:  WORD 0,,P
        WORD 0,,ALR             ; the bit that is taken
        WORD 0
        WORD 0,,ALR             ; the bit that is deferred in the handler
        WORD 0
        WORD 0,,HANDLE
        LOC 100
START:  .CALL OPENI
        .BREAK 16,
        .CALL OPENO
        .BREAK 16,
        .CALL REALT
        .BREAK 16,
LOOP:   .IOT TTYI,CH
        .IOT TTYO,CH
        JRST LOOP
HANDLE: MOVEM CH,SAVE
        AOS CH,SECS
        CAIGE CH,74             ; 60 seconds
        JRST BACK
        SETZM SECS
        AOS MINS
BACK:   MOVE CH,SAVE
        .CALL DIS
        .BREAK 16,
OPENI:  WORD 400000,,0
        SIXBIT OPEN
        WORD 1000,,TTYI
        WORD 0,,TTY
        WORD 403000,,ERR
OPENO:  WORD 400000,,0
        SIXBIT OPEN
        WORD 5000,,1            ; for output
        WORD 1000,,TTYO
        WORD 0,,TTY
        WORD 403000,,ERR
SETM:   WORD 400000,,0
        SIXBIT USRVAR
        WORD 1000,,777777       ; of the job itself
        WORD 0,,MASK
        WORD 1000,,ALR
        WORD 403000,,ERR
REALT:  WORD 400000,,0
        SIXBIT REALT
        WORD 1000,,36           ; 30 thirtieths of a second
        WORD 403000,,ERR
DIS:    WORD 400000,,0
        SIXBIT DISMIS
        WORD 400000,,P
TTY:    SIXBIT TTY
MASK:   SIXBIT MASK
ERR:    WORD 0
SECS:   WORD 0                  ; 0 to 59, which is 73 in octal
MINS:   WORD 0
SAVE:   WORD 0
        GO START
