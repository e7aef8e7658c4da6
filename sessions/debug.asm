; The source of the image in debug.its: a debugger. It makes an inferior that counts the seconds, and obeys one key each:
; G starts it, S stops it, P prints its PC and 1 if it is stopped, K removes it and makes another one; and digits with / after them
; print the word at this address of it. Whenever the debugger looks, the inferior is found in user mode, never inside of its SLEEP.
        JOB U DEBUG 0
CH = 1                          ; a byte in hand
N = 2                           ; an address that is typed
V = 3                           ; a word to be printed
K = 4                           ; its digits
P = 17                          ; the stack
TTYI = 1                        ; the channels for input, for output, and on the inferior
TTYO = 2
INF = 3
        LOC P
        WORD 777700,,677        ; 100 words from 700 on
        LOC 100
START:  .CALL OPENI             ; a call that succeeds skips the instruction after it
        .BREAK 16,
        .CALL OPENO
        .BREAK 16,
MAKE:   .CALL NEW               ; the inferior, its page 0, its program and its PC
        .BREAK 16,
        .CALL PAGE
        .BREAK 16,
        .CALL SEEK
        .BREAK 16,
        MOVE V,[444400,,PROG]
        MOVEM V,POINT
        MOVEI V,LAST-PROG
        MOVEM V,COUNT
        .CALL MOVEIN
        .BREAK 16,
        .CALL SETPC
        .BREAK 16,
READY:  .IOT TTYO,[15]
        .IOT TTYO,[12]
        .IOT TTYO,[52]          ; *
        MOVEI N,0
NEXT:   .IOT TTYI,CH
        CAIGE CH,40             ; a control character is passed over
        JRST NEXT
        .IOT TTYO,CH
        CAIN CH,57              ; /
        JRST EXAM
        CAIL CH,60              ; 0 to 7
        CAILE CH,67
        JRST LETTER
        LSH N,3
        ADDI N,0-60(CH)       ; the digit
        JRST NEXT
LETTER: ANDI CH,137             ; a small letter is the same as a capital one
        CAIN CH,107             ; G
        JRST GOON
        CAIN CH,123             ; S
        JRST STOP
        CAIN CH,120             ; P
        JRST PC
        CAIN CH,113             ; K
        JRST KILL
WRONG:  .IOT TTYO,[77]          ; ?
        JRST READY
GOON:   .CALL RUN
        JRST WRONG
        JRST READY
STOP:   .CALL HALT
        JRST WRONG
        JRST READY
PC:     .CALL GETPC
        JRST WRONG
        PUSHJ P,PRINT
        .CALL STATE
        JRST WRONG
        .IOT TTYO,[40]
        ADDI V,60
        .IOT TTYO,V
        JRST READY
EXAM:   .CALL LOOK
        JRST WRONG
        PUSHJ P,PRINT
        JRST READY
KILL:   .CALL REMOVE
        JRST WRONG
        JRST MAKE
; Prints the word in V: a space and 14 digits, in octal
PRINT:  .IOT TTYO,[40]
        MOVEI K,14
DIGIT:  ROT V,3
        MOVE CH,V
        ANDI CH,7
        ADDI CH,60
        .IOT TTYO,CH
        SOJG K,DIGIT
        POPJ P,
; The blocks of the calls
OPENI:  WORD 400000,,0
        SIXBIT OPEN
        WORD 1000,,TTYI
        WORD 400000,,TTY
OPENO:  WORD 400000,,0
        SIXBIT OPEN
        WORD 5000,,1            ; for output
        WORD 1000,,TTYO
        WORD 400000,,TTY
NEW:    WORD 400000,,0
        SIXBIT OPEN
        WORD 5000,,1            ; to write
        WORD 1000,,INF
        WORD 0,,USR
        WORD 0,,UNAME
        WORD 400000,,JNAME
PAGE:   WORD 400000,,0
        SIXBIT CORBLK
        WORD 1000,,1
        WORD 1000,,INF
        WORD 401000,,0
SEEK:   WORD 400000,,0
        SIXBIT ACCESS
        WORD 1000,,INF
        WORD 401000,,100
MOVEIN: WORD 400000,,0
        SIXBIT SIOT
        WORD 1000,,INF
        WORD 0,,POINT
        WORD 400000,,COUNT
SETPC:  WORD 400000,,0
        SIXBIT USRVAR
        WORD 1000,,INF
        WORD 0,,UPC
        WORD 401000,,100
RUN:    WORD 400000,,0
        SIXBIT USRVAR
        WORD 1000,,INF
        WORD 0,,USTP
        WORD 401000,,0
HALT:   WORD 400000,,0
        SIXBIT USRVAR
        WORD 1000,,INF
        WORD 0,,USTP
        WORD 401000,,1
GETPC:  WORD 400000,,0
        SIXBIT USRVAR
        WORD 1000,,INF
        WORD 0,,UPC
        WORD 402000,,V
STATE:  WORD 400000,,0
        SIXBIT USRVAR
        WORD 1000,,INF
        WORD 0,,USTP
        WORD 402000,,V
LOOK:   WORD 400000,,0
        SIXBIT USRMEM
        WORD 1000,,INF
        WORD 0,,N
        WORD 402000,,V
REMOVE: WORD 400000,,0
        SIXBIT UCLOSE
        WORD 401000,,INF
TTY:    SIXBIT TTY
USR:    SIXBIT USR
UNAME:  SIXBIT U
JNAME:  SIXBIT COUNT
UPC:    SIXBIT UPC
USTP:   SIXBIT USTP
POINT:  WORD 0
COUNT:  WORD 0
; The program of the inferior, for its words 100 to 110. It counts at 200, and sleeps one second by the word at 201, which SLEEP makes
; minus the time of waking.
PROG:   AOS 200
        MOVEI 1,36
        MOVEM 1,201
        .CALL 106
        .BREAK 16,
        JRST 100
        WORD 400000,,0
        SIXBIT SLEEP
        WORD 400000,,201
LAST = .
        GO START
