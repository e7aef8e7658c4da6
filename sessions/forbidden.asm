; The source of the image in forbidden.its: a job that tries, one after the other, five things that no job may do.
        JOB U X 0
INF = 1                         ; the channel on its inferior, without leave to write
FIL = 2                         ; the channel that reads a file
        LOC 100
START:  .CALL REACH             ; a channel on a job that is not its inferior
        CAI                     ; a call that fails does not skip this
        .CALL MAKE              ; an inferior of its own, which it may make
        .BREAK 16,
        .CALL SHUT
        .BREAK 16,
        .CALL AGAIN             ; a channel on it without leave to write
        .BREAK 16,
        .CALL STORE             ; a word of it through this channel
        CAI
        .CALL FREE              ; or to start it
        CAI
        .CALL TAKE              ; the console that another job holds
        CAI
        .CALL READ              ; a file, to read it
        .BREAK 16,
        .CALL WIPE              ; to delete it while a channel reads it
        CAI
        .BREAK 16,
        LOC 200
REACH:  WORD 400000,,0
        SIXBIT OPEN
        WORD 5000,,1            ; to write
        WORD 1000,,INF
        WORD 0,,USR
        WORD 0,,UNAME
        WORD 0,,OTHER
        WORD 403000,,ERRORS
        LOC 210
MAKE:   WORD 400000,,0
        SIXBIT OPEN
        WORD 5000,,1
        WORD 1000,,INF
        WORD 0,,USR
        WORD 0,,UNAME
        WORD 400000,,MINE
        LOC 220
SHUT:   WORD 400000,,0
        SIXBIT CLOSE
        WORD 401000,,INF
        LOC 230
AGAIN:  WORD 400000,,0
        SIXBIT OPEN
        WORD 1000,,INF          ; to read
        WORD 0,,USR
        WORD 0,,UNAME
        WORD 400000,,MINE
        LOC 240
STORE:  WORD 400000,,0
        SIXBIT USRMEM
        WORD 1000,,INF
        WORD 1000,,100
        WORD 1000,,7
        WORD 403000,,ERRORS+1
        LOC 250
FREE:   WORD 400000,,0
        SIXBIT USRVAR
        WORD 1000,,INF
        WORD 0,,USTP
        WORD 1000,,0
        WORD 403000,,ERRORS+2
        LOC 260
TAKE:   WORD 400000,,0
        SIXBIT TTYLND
        WORD 1000,,777777         ; itself
        WORD 403000,,ERRORS+3
        LOC 270
READ:   WORD 400000,,0
        SIXBIT OPEN
        WORD 1000,,FIL
        WORD 0,,DSK
        WORD 0,,NOTES
        WORD 0,,TEXT
        WORD 400000,,UNAME
        LOC 300
WIPE:   WORD 400000,,0
        SIXBIT DELETE
        WORD 0,,DSK
        WORD 0,,NOTES
        WORD 0,,TEXT
        WORD 0,,UNAME
        WORD 403000,,ERRORS+4
        LOC 320
USR:    SIXBIT USR
DSK:    SIXBIT DSK
UNAME:  SIXBIT U
OTHER:  SIXBIT S
MINE:   SIXBIT I
USTP:   SIXBIT USTP
NOTES:  SIXBIT NOTES
TEXT:   SIXBIT TEXT
        LOC 340
ERRORS: WORD 0
        WORD 0
        WORD 0
        WORD 0
        WORD 0
        GO START
