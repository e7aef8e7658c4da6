; Of task 8: the job that is moved. It reads four bytes, adds them in accumulator 4, and puts them out.
        JOB U TRAVEL 1
P = 1                           ; a byte pointer
N = 2                           ; a count
CH = 3                          ; a byte
SUM = 4
        LOC 100
START:  .CALL OPENI
        .BREAK 16,
        .CALL OPENO
        .BREAK 16,
        MOVE P,POINT
        MOVEI N,4
READ:   .CALL GET
        .BREAK 16,
        MOVE P,POINT
        MOVEI N,4
        MOVEI SUM,0
ADD:    ILDB CH,P
        ADD SUM,CH
        SOJG N,ADD
        MOVE P,POINT
        MOVEI N,4
REPEAT: .CALL PUT
        .BREAK 16,
DONE:   .BREAK 16,
OPENI:  WORD 400000,,0
        SIXBIT OPEN
        WORD 1000,,1
        WORD 400000,,TTY
OPENO:  WORD 400000,,0
        SIXBIT OPEN
        WORD 5000,,1            ; for output
        WORD 1000,,2
        WORD 400000,,TTY
GET:    WORD 400000,,0
        SIXBIT SIOT
        WORD 1000,,1
        WORD 0,,P
        WORD 400000,,N
PUT:    WORD 400000,,0
        SIXBIT SIOT
        WORD 1000,,2
        WORD 0,,P
        WORD 400000,,N
TTY:    SIXBIT TTY
POINT:  WORD 440700,,BUF        ; before the first byte
BUF:    LOC .+1
        GO START
