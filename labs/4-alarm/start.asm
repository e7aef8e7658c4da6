; Task 4: a job that repeats what is typed, and counts the seconds meanwhile.
        JOB U ALARM 0
CH = 1                          ; the byte of the program
P = 17                          ; the stack pointer of interrupts
ALR = 400                       ; the bit of alarms
TTYI = 1
TTYO = 2
        LOC P
        WORD 777700,,500
        LOC 100
START:  .CALL OPENI
        .BREAK 16,
        .CALL OPENO
        .BREAK 16,
; Here the job asks for an alarm each second, and lets it interrupt
LOOP:   .IOT TTYI,CH
        .IOT TTYO,CH
        JRST LOOP
OPENI:  WORD 400000,,0
        SIXBIT OPEN
        WORD 1000,,TTYI
        WORD 0,,TTY
        WORD 403000,,ERR
OPENO:  WORD 400000,,0
        SIXBIT OPEN
        WORD 5000,,1            ; for output
        WORD 1000,,TTYO
        WORD 0,,TTY
        WORD 403000,,ERR
TTY:    SIXBIT TTY
ERR:    WORD 0
SECS:   WORD 0                  ; 0 to 59, which is 73 in octal
MINS:   WORD 0
        GO START
