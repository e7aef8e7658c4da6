; Task 5: the words of a file, doubled, in another file.
        JOB U COPY -
N = 1
IN = 1                          ; the channel that reads the file A IN of directory LAB
OUT = 2                         ; the channel on the draft of A OUT
PART = 4                        ; so many words at a time
        LOC 100
START:  .CALL OPENI
        .BREAK 16,
        .CALL OPENO
        .BREAK 16,
        .BREAK 16,              ; put your program in the place of this line
OPENI:  WORD 400000,,0
        SIXBIT OPEN
        WORD 1000,,IN
        WORD 0,,DSK
        WORD 0,,A
        WORD 0,,NAMEI
        WORD 400000,,LAB
OPENO:  WORD 400000,,0
        SIXBIT OPEN
        WORD 5000,,1            ; for output: a draft
        WORD 1000,,OUT
        WORD 0,,DSK
        WORD 0,,A
        WORD 0,,NAMEO
        WORD 400000,,LAB
DSK:    SIXBIT DSK
LAB:    SIXBIT LAB
A:      SIXBIT A
NAMEI:  SIXBIT IN
NAMEO:  SIXBIT OUT
ERR:    WORD 0
BUF:    LOC .+PART              ; room for one part
        GO START
