; The source of the image in sleep.its: a job that sleeps for one second.
        JOB U J -
        LOC 100
START:  .CALL SLP
        .BREAK 16,              ; if the call fails
DONE:   JRST DONE
        LOC 120
SLP:    WORD 400000,,0
        SIXBIT SLEEP
        WORD 400000,,TIME       ; the argument is the word at TIME, and the last one
        LOC 200
TIME:   WORD 36                 ; thirtieths of a second
        GO START
