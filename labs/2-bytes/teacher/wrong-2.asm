; For those who teach: a wrong solution of task 2. Each byte loses the bit 40, also a digit.
; Fails: Only the bytes 141 to 172 change
        JOB U BYTES 0
CH = 1                          ; a byte
N = 2                           ; how many bytes the line has
P = 3                           ; a byte pointer
TTYI = 1
TTYO = 2
        LOC 100
START:  .CALL OPENI             ; a call that succeeds skips the instruction after it
        .BREAK 16,
        .CALL OPENO
        .BREAK 16,
LINE:   MOVE P,POINT
        MOVEI N,0
NEXT:   .IOT TTYI,CH
        CAIN CH,15
        JRST ENDED
        IDPB CH,P
        AOJA N,NEXT
ENDED:  MOVEM N,COUNT
        MOVE P,POINT
OUT:    SOJL N,DONE
        ILDB CH,P
        ANDI CH,137
PUT:    .IOT TTYO,CH
        JRST OUT
DONE:   .IOT TTYO,[15]
        .IOT TTYO,[12]
        JRST LINE
OPENI:  WORD 400000,,0
        SIXBIT OPEN
        WORD 1000,,TTYI
        WORD 0,,TTY
        WORD 403000,,ERR
OPENO:  WORD 400000,,0
        SIXBIT OPEN
        WORD 5000,,1            ; for output
        WORD 1000,,TTYO
        WORD 0,,TTY
        WORD 403000,,ERR
TTY:    SIXBIT TTY
ERR:    WORD 0
POINT:  WORD 440700,,BUF        ; before the first byte of BUF
COUNT:  WORD 0
BUF:    LOC .+20
        GO START
