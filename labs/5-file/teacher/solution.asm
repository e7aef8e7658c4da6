; For those who teach: a solution of task 5.
        JOB U COPY -
N = 1
IN = 1                          ; the channel that reads the file A IN of directory LAB
OUT = 2                         ; the channel on the draft of A OUT
PART = 4                        ; so many words at a time
        LOC 100
START:  .CALL OPENI
        .BREAK 16,
        .CALL OPENO
        .BREAK 16,
NEXT:   MOVE N,[444400,,BUF]
        MOVEM N,POINT
        MOVEI N,PART
        MOVEM N,COUNT
        .CALL GET
        .BREAK 16,
        MOVEI N,PART            ; how many came
        SUB N,COUNT
        JUMPE N,SHUT
        MOVEM N,COUNT
DOUBLE: MOVE 2,BUF-1(N)
        ADDM 2,BUF-1(N)
        SOJG N,DOUBLE
        MOVE N,[444400,,BUF]
        MOVEM N,POINT
        .CALL PUT
        .BREAK 16,
        JRST NEXT
SHUT:   .CALL CLOSE
        JRST SHUT               ; somebody reads the old file
        .BREAK 16,
OPENI:  WORD 400000,,0
        SIXBIT OPEN
        WORD 1000,,IN
        WORD 0,,DSK
        WORD 0,,A
        WORD 0,,NAMEI
        WORD 400000,,LAB
OPENO:  WORD 400000,,0
        SIXBIT OPEN
        WORD 5000,,1            ; for output: a draft
        WORD 1000,,OUT
        WORD 0,,DSK
        WORD 0,,A
        WORD 0,,NAMEO
        WORD 400000,,LAB
GET:    WORD 400000,,0
        SIXBIT SIOT
        WORD 1000,,IN
        WORD 0,,POINT
        WORD 0,,COUNT
        WORD 403000,,ERR
PUT:    WORD 400000,,0
        SIXBIT SIOT
        WORD 1000,,OUT
        WORD 0,,POINT
        WORD 0,,COUNT
        WORD 403000,,ERR
CLOSE:  WORD 400000,,0
        SIXBIT CLOSE
        WORD 1000,,OUT
        WORD 403000,,ERR
DSK:    SIXBIT DSK
LAB:    SIXBIT LAB
A:      SIXBIT A
NAMEI:  SIXBIT IN
NAMEO:  SIXBIT OUT
POINT:  WORD 0
COUNT:  WORD 0
ERR:    WORD 0
BUF:    LOC .+PART              ; room for one part
        GO START
