; The source of the image in parent.its: a job that makes another job, loads it, starts it, and reads a word of it.
        JOB U X 0
INF = 1                         ; the channel on the inferior
        LOC 100
START:  .CALL NEW               ; make it
        .BREAK 16,
        .CALL PAGE              ; its page 0
        .BREAK 16,
        .CALL SEEK              ; from its word 100 on
        .BREAK 16,
        .CALL MOVE              ; move its program into it
        .BREAK 16,
        .CALL SETPC
        .BREAK 16,
        .CALL RUN
        .BREAK 16,
        .CALL LOOK              ; read its word 100 into accumulator 5
        .BREAK 16,
        .BREAK 16,
        LOC 200
NEW:    WORD 400000,,0
        SIXBIT OPEN
        WORD 5000,,1            ; to write
        WORD 1000,,INF
        WORD 0,,USR
        WORD 0,,UNAME
        WORD 400000,,JNAME
        LOC 210
PAGE:   WORD 400000,,0
        SIXBIT CORBLK
        WORD 1000,,1
        WORD 1000,,INF
        WORD 401000,,0
        LOC 220
SEEK:   WORD 400000,,0
        SIXBIT ACCESS
        WORD 1000,,INF
        WORD 401000,,100
        LOC 230
MOVE:   WORD 400000,,0
        SIXBIT SIOT
        WORD 1000,,INF
        WORD 0,,POINT
        WORD 400000,,COUNT
        LOC 240
SETPC:  WORD 400000,,0
        SIXBIT USRVAR
        WORD 1000,,INF
        WORD 0,,UPC
        WORD 401000,,100
        LOC 250
RUN:    WORD 400000,,0
        SIXBIT USRVAR
        WORD 1000,,INF
        WORD 0,,USTP
        WORD 401000,,0
        LOC 260
LOOK:   WORD 400000,,0
        SIXBIT USRMEM
        WORD 1000,,INF
        WORD 1000,,100
        WORD 402000,,5
        LOC 300
POINT:  WORD 444400,,PROG       ; words from PROG on
COUNT:  WORD 5
        LOC 400
; The program of the inferior: a call of HANG, for its word 100.
PROG:   .CALL 102
        .BREAK 16,
        WORD 400000,,0
        SIXBIT HANG
        WORD 405000,,0
        LOC 500
USR:    SIXBIT USR
UNAME:  SIXBIT U
JNAME:  SIXBIT K
UPC:    SIXBIT UPC
USTP:   SIXBIT USTP
        GO START
