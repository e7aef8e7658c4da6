; The source of the image in core.its: a job that makes a page, makes it read only, and drops it.
        JOB U C -
PAGE = 2000                     ; page 1
        LOC 1
        WORD 123                ; what is stored there, in accumulator 1
        LOC 100
START:  .CALL MAKE
        .BREAK 16,
        MOVEM 1,PAGE
        .CALL LOCK
        .BREAK 16,
        MOVE 2,PAGE
        MOVEM 1,PAGE+1          ; faults, because the page is read only
        .CALL DROP
        .BREAK 16,
        MOVE 3,PAGE             ; faults, because there is no page
        LOC 120
; CORBLK of page 1 of the job itself: 1 makes it, of zeros
MAKE:   WORD 400000,,0
        SIXBIT CORBLK
        WORD 1000,,1
        WORD 1000,,777777
        WORD 401000,,1
        LOC 130
; 2 makes it read only
LOCK:   WORD 400000,,0
        SIXBIT CORBLK
        WORD 1000,,2
        WORD 1000,,777777
        WORD 401000,,1
        LOC 140
; 0 drops it
DROP:   WORD 400000,,0
        SIXBIT CORBLK
        WORD 1000,,0
        WORD 1000,,777777
        WORD 401000,,1
        GO START
