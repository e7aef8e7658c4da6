; For those who teach: a wrong solution of task 6. PIRQC is not cleared, so that the inferior stops again at once.
; Fails: clear PIRQC
        JOB U DDT -
INF = 1                         ; the channel on the inferior
FIL = 2                         ; the channel that reads the file PROG BIN of directory LAB
K = 5                           ; which breakpoint
V = 6                           ; a value
        LOC 100
START:  .CALL NEW
        .BREAK 16,
        .CALL PAGE
        .BREAK 16,
        .CALL OPENF             ; load it: from the file into BUF, and from there into the inferior
        .BREAK 16,
        .CALL LENGTH
        .BREAK 16,
        MOVEM V,COUNT
        .CALL GET
        .BREAK 16,
        MOVE 1,[444400,,BUF]
        MOVEM 1,POINT
        MOVEM V,COUNT
        .CALL SEEK
        .BREAK 16,
        .CALL PUT
        .BREAK 16,
        MOVEI V,100
        .CALL SETPC
        .BREAK 16,
        MOVEI K,0
NEXT:   MOVE 1,BREAKS(K)
        MOVEM 1,ADDR
        .CALL PLANT             ; the instruction there is kept in OLD
        .BREAK 16,
GOON:   .CALL RUN
        .BREAK 16,
WAIT:   .CALL ASK
        .BREAK 16,
        JUMPE V,WAIT            ; until it is stopped
        .CALL LOOK
        .BREAK 16,
        MOVEM V,SEEN(K)
        CAIL K,2
        .BREAK 16,              ; that was its end
        .CALL UNDO              ; the instruction, the PC with its flags, and the pending bit
        .BREAK 16,
        .CALL GETPC
        .BREAK 16,
        SUBI V,1
        .CALL SETPC
        .BREAK 16,
        CAIGE K,1
        AOJA K,NEXT
        AOJA K,GOON
NEW:    WORD 400000,,0
        SIXBIT OPEN
        WORD 5000,,1            ; to write
        WORD 1000,,INF
        WORD 0,,USR
        WORD 0,,UNAME
        WORD 400000,,JNAME
PAGE:   WORD 400000,,0          ; page 0 of the inferior
        SIXBIT CORBLK
        WORD 1000,,1
        WORD 1000,,INF
        WORD 401000,,0
OPENF:  WORD 400000,,0
        SIXBIT OPEN
        WORD 1000,,FIL
        WORD 0,,DSK
        WORD 0,,JNAME
        WORD 0,,BIN
        WORD 400000,,LAB
LENGTH: WORD 400000,,0
        SIXBIT FILLEN
        WORD 1000,,FIL
        WORD 402000,,V
GET:    WORD 400000,,0
        SIXBIT SIOT
        WORD 1000,,FIL
        WORD 0,,POINT
        WORD 400000,,COUNT
SEEK:   WORD 400000,,0
        SIXBIT ACCESS
        WORD 1000,,INF
        WORD 401000,,100
PUT:    WORD 400000,,0
        SIXBIT SIOT
        WORD 1000,,INF
        WORD 0,,POINT
        WORD 400000,,COUNT
PLANT:  WORD 400000,,0
        SIXBIT USRMEM
        WORD 1000,,INF
        WORD 0,,ADDR
        WORD 0,,BREAK
        WORD 402000,,OLD
UNDO:   WORD 400000,,0
        SIXBIT USRMEM
        WORD 1000,,INF
        WORD 0,,ADDR
        WORD 400000,,OLD
LOOK:   WORD 400000,,0          ; accumulator 1
        SIXBIT USRMEM
        WORD 1000,,INF
        WORD 1000,,1
        WORD 402000,,V
RUN:    WORD 400000,,0
        SIXBIT USRVAR
        WORD 1000,,INF
        WORD 0,,USTP
        WORD 401000,,0
ASK:    WORD 400000,,0
        SIXBIT USRVAR
        WORD 1000,,INF
        WORD 0,,USTP
        WORD 402000,,V
GETPC:  WORD 400000,,0
        SIXBIT USRVAR
        WORD 1000,,INF
        WORD 0,,UPC
        WORD 402000,,V
SETPC:  WORD 400000,,0
        SIXBIT USRVAR
        WORD 1000,,INF
        WORD 0,,UPC
        WORD 400000,,V
CLEAR:  WORD 400000,,0
        SIXBIT USRVAR
        WORD 1000,,INF
        WORD 0,,PIRQC
        WORD 401000,,0
USR:    SIXBIT USR
DSK:    SIXBIT DSK
LAB:    SIXBIT LAB
BIN:    SIXBIT BIN
UNAME:  SIXBIT U
JNAME:  SIXBIT PROG
USTP:   SIXBIT USTP
UPC:    SIXBIT UPC
PIRQC:  SIXBIT PIRQC
BREAK:  .BREAK 16,
BREAKS: WORD 102                ; the two addresses for breakpoints
        WORD 103
SEEN:   WORD 0                  ; accumulator 1 of the inferior at both, and at its end
        WORD 0
        WORD 0
ADDR:   WORD 0
OLD:    WORD 0
POINT:  WORD 444400,,BUF
COUNT:  WORD 0
BUF:    LOC .+40
        GO START
