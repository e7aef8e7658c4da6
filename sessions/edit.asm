; The source of the image in edit.its: a line editor that reverses lines. It repeats each key, takes the last one back at a rubout,
; and at a carriage return puts the line out backwards.
        JOB U EDIT 0
CH = 1                          ; a byte in hand
N = 2                           ; how many bytes the line has
Q = 3                           ; where the next byte of the reversed line goes
TTYI = 1                        ; the channels for input and for output
TTYO = 2
MOST = 100                      ; so many bytes a line may have
        LOC 100
START:  .CALL OPENI             ; a call that succeeds skips the instruction after it
        .BREAK 16,
        .CALL OPENO
        .BREAK 16,
NEW:    MOVEI N,0
NEXT:   .IOT TTYI,CH
        CAIN CH,177             ; a rubout
        JRST RUB
        CAIN CH,15              ; a carriage return
        JRST BACK
        CAIL N,MOST
        JRST FULL
        MOVEM CH,LINE(N)
        .IOT TTYO,CH
        AOJA N,NEXT
FULL:   .IOT TTYO,[7]           ; the line is full: the bell rings
        JRST NEXT
RUB:    SOJL N,NEW              ; there is nothing to take back
        .IOT TTYO,[10]          ; a backspace, a space over the byte, and a backspace
        .IOT TTYO,[40]
        .IOT TTYO,[10]
        JRST NEXT
; The line is done. It is packed backwards, between two pairs of carriage return and line feed, and put out by one SIOT.
BACK:   MOVE Q,POINT
        MOVEM Q,FROM
        MOVEI CH,4              ; with the two pairs
        ADD CH,N
        MOVEM CH,COUNT
        JSP 4,PAIR
TURN:   SOJL N,DONE
        MOVE CH,LINE(N)
        IDPB CH,Q
        JRST TURN
DONE:   JSP 4,PAIR
        .CALL PUT
        .BREAK 16,
        JRST NEW
PAIR:   MOVEI CH,15
        IDPB CH,Q
        MOVEI CH,12
        IDPB CH,Q
        JRST (4)
; The blocks of the calls
OPENI:  WORD 400000,,0
        SIXBIT OPEN
        WORD 1000,,TTYI
        WORD 400000,,TTY
OPENO:  WORD 400000,,0
        SIXBIT OPEN
        WORD 5000,,1            ; for output
        WORD 1000,,TTYO
        WORD 400000,,TTY
PUT:    WORD 400000,,0
        SIXBIT SIOT
        WORD 1000,,TTYO
        WORD 0,,FROM
        WORD 400000,,COUNT
TTY:    SIXBIT TTY
POINT:  WORD 440700,,TEXT       ; before the first byte of TEXT, in bytes of 7 bits
FROM:   WORD 0
COUNT:  WORD 0
LINE = 400                      ; the line, a byte in each word
TEXT = 600                      ; the line backwards
        GO START
