; Task 7: a job between a producer and a consumer.
        JOB U FILTER -
IN = 1                          ; the reading end of the link IN
OUT = 2                         ; the writing end of the link OUT
DONE = 3                        ; the reading end of the link DONE
        LOC 100
START:  .CALL OPENI
        .BREAK 16,
        .BREAK 16,              ; put your program in the place of this line
OPENI:  WORD 400000,,0
        SIXBIT OPEN
        WORD 1000,,IN
        WORD 0,,LNK
        WORD 0,,NAMEI
        WORD 403000,,ERR
LNK:    SIXBIT LNK
NAMEI:  SIXBIT IN
NAMEO:  SIXBIT OUT
NAMED:  SIXBIT DONE
ERR:    WORD 0
        GO START
