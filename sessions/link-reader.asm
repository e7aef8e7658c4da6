; The source of the reader in link.its: it puts on its console what somebody sends through the link TEXT.
        JOB U R 0
P = 1                           ; the byte pointer
N = 2                           ; the count
LINK = 1                        ; the channel on the reading end of the link
TTYO = 2                        ; and that on the console
MOST = 20                       ; so many bytes at most: 16 in decimal
BUFFER = 1000
        LOC 100
START:  .CALL OPENL             ; a call skips the instruction after it if it succeeds
        .BREAK 16,
        .CALL OPENT
        .BREAK 16,
        MOVE P,POINT
        MOVEI N,MOST
        .CALL READ              ; as many bytes as come before the writing end is closed
        .BREAK 16,
        MOVN N,N                ; N says how many did not come,
        ADDI N,MOST             ; and now how many came
        MOVE P,POINT
        .CALL PRINT
        .BREAK 16,
        .BREAK 16,
        LOC 140
; OPEN of the reading end: there is no control argument. The second name is left out, so it is 0.
OPENL:  WORD 400000,,0
        SIXBIT OPEN
        WORD 1000,,LINK
        WORD 0,,LNK
        WORD 400000,,NAME
; OPEN of the console for output: the control argument is 1.
OPENT:  WORD 400000,,0
        SIXBIT OPEN
        WORD 5000,,1
        WORD 1000,,TTYO
        WORD 400000,,TTY
; SIOT from the link, and SIOT to the console: channel, pointer, count
READ:   WORD 400000,,0
        SIXBIT SIOT
        WORD 1000,,LINK
        WORD 0,,P
        WORD 400000,,N
PRINT:  WORD 400000,,0
        SIXBIT SIOT
        WORD 1000,,TTYO
        WORD 0,,P
        WORD 400000,,N
LNK:    SIXBIT LNK              ; the device
NAME:   SIXBIT TEXT             ; the name of the link
TTY:    SIXBIT TTY
POINT:  WORD 440700,,BUFFER     ; before the first byte of the buffer, in bytes of 7 bits
        GO START
