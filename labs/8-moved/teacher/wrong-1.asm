; For those who teach: a wrong solution of task 8. It begins the program anew.
; Fails: The text carries the four accumulators, the word at BUF and the PC
        JOB U TRAVEL 0
P = 1                           ; a byte pointer
N = 2                           ; a count
CH = 3                          ; a byte
SUM = 4
        LOC 1
        WORD 350700,,BUF        ; its accumulators 1 to 4
        WORD 3
        WORD 0
        WORD 0
        LOC 100
START:  .CALL OPENI
        .BREAK 16,
        .CALL OPENO
        .BREAK 16,
        MOVE P,POINT
        MOVEI N,4
READ:   .CALL GET
        .BREAK 16,
        MOVE P,POINT
        MOVEI N,4
        MOVEI SUM,0
ADD:    ILDB CH,P
        ADD SUM,CH
        SOJG N,ADD
        MOVE P,POINT
        MOVEI N,4
REPEAT: .CALL PUT
        .BREAK 16,
DONE:   .BREAK 16,
OPENI:  WORD 400000,,0
        SIXBIT OPEN
        WORD 1000,,1
        WORD 400000,,TTY
OPENO:  WORD 400000,,0
        SIXBIT OPEN
        WORD 5000,,1            ; for output
        WORD 1000,,2
        WORD 400000,,TTY
GET:    WORD 400000,,0
        SIXBIT SIOT
        WORD 1000,,1
        WORD 0,,P
        WORD 400000,,N
PUT:    WORD 400000,,0
        SIXBIT SIOT
        WORD 1000,,2
        WORD 0,,P
        WORD 400000,,N
TTY:    SIXBIT TTY
POINT:  WORD 440700,,BUF        ; before the first byte
BUF:    WORD 604000,,0          ; the byte 141, which it has taken
HERE:   WORD 010000,,READ       ; its PC and flags
CARRY:  .CALL OPENI             ; its channels
        .BREAK 16,
        .CALL OPENO
        .BREAK 16,
        JRST 2,@HERE
        GO START
