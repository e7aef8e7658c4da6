; TALK NAME: what one types appears at the other's console, and what the other types here, key by key. Control-D leaves.
;
; No call waits for a console and for a link at once. So an inferior, HEAR, takes words from the link of the other. At each word it stops itself by
; .BREAK, which sets INF here: the handler shows the word, and lets HEAR go on. The job itself waits for keys all the time, and each interrupt finds
; it at its .IOT, outside the call.
        JOB ITS TALK 0
CH = 1                          ; a byte in hand
T = 2                           ; a text
A = 3
N = 4
W = 10                          ; of the handler: a word that came
P = 17                          ; the stack
TTYI = 1                        ; channels
TTYO = 2
SEND = 3                        ; the link to the other
INF = 4                         ; the inferior
INFBIT = 200
OTHER = 20                      ; the argument: the other's name
        LOC 42
        WORD 777772,,TSINT
        LOC 100
TSINT:  WORD 0,,P
        WORD 0,,INFBIT
        WORD 0
        WORD 0,,INFBIT
        WORD 0
        WORD 0,,HANDLE
START:  MOVE P,[777700,,STACK-1]
        .CALL OPENI
        .BREAK 16,
        .CALL OPENO
        .BREAK 16,
        MOVEI T,MWHOM
        SKIPN A,OTHER
        JRST LEAVE
        MOVEM A,HOTHER
        .CALL GETME
        .BREAK 16,
        MOVEM A,HME
        MOVEI T,MBUSY
        .CALL OPENL             ; error 24: one talks there already
        JRST LEAVE
        .CALL NEW
        JRST LEAVE
        .CALL PUT
        .BREAK 16,
        .CALL SETPC
        .BREAK 16,
        MOVEI T,MHELLO
        PUSHJ P,SAY
        .CALL SETM
        .BREAK 16,
        .CALL RUNON
        .BREAK 16,
NEXT:   .IOT TTYI,CH
        CAIN CH,4               ; Control-D
        JRST BYE
        .IOT TTYO,CH
        PUSHJ P,GIVE
        CAIE CH,15
        JRST NEXT
        MOVEI CH,12             ; a return is two bytes
        .IOT TTYO,CH
        PUSHJ P,GIVE
        JRST NEXT
; A byte for the other. SIOT fails if nobody reads any more, and is no fault as .IOT would be.
GIVE:   MOVEI A,1
        MOVEM A,COUNT
        MOVEM CH,BYTE
        MOVE A,[444400,,BYTE]
        MOVEM A,FROM
        .CALL SEND1
        JRST BYE
        POPJ P,
; HEAR has stopped: with a word in its accumulator 0, or because there will be none
HANDLE: .CALL GETW
        JRST HANDL1
        CAMN W,[777777,,3]
        JRST LEFT
        .IOT TTYO,W
        .CALL CLEAR
        JRST HANDL1
        .CALL RUNON
        JFCL
HANDL1: .CALL DIS
        .BREAK 16,
LEFT:   MOVEI T,MLEFT
LEAVE:  PUSHJ P,SAY
BYE:    .CALL OUT
        .BREAK 16,
; A text of words in SIXBIT, with blanks after words of less than six bytes
SAY:    SKIPN A,(T)
        JRST CRLF
        MOVEI N,6
SAY1:   MOVE CH,A
        LSH CH,0-36
        ADDI CH,40
        .IOT TTYO,CH
        LSH A,6
        SOJE N,SAY2
        JUMPN A,SAY1
        .IOT TTYO,[40]
SAY2:   AOJA T,SAY
CRLF:   .IOT TTYO,[15]
        .IOT TTYO,[12]
        POPJ P,
MWHOM:  SIXBIT TALK
        SIXBIT TO
        SIXBIT WHOM?
        WORD 0
MBUSY:  SIXBIT THAT
        SIXBIT LINK
        SIXBIT IS
        SIXBIT IN
        SIXBIT USE.
        WORD 0
MHELLO: SIXBIT ^D
        SIXBIT LEAVES
        SIXBIT .
        WORD 0
MLEFT:  SIXBIT THE
        SIXBIT OTHER
        SIXBIT HAS
        SIXBIT LEFT.
        WORD 0
; The program of HEAR, in its accumulators from 0 on
HEAR:   WORD 0
        .CALL 6                 ; 1: opens the reading end of the link
        .BREAK 16,
        .IOT 1,0                ; 3
        .BREAK 16,              ; TALK shows the word
        JRST 3
        WORD 400000,,0          ; 6
        SIXBIT OPEN
        WORD 1000,,1
        WORD 0,,14
        WORD 0,,15
        WORD 400000,,16
        SIXBIT LNK              ; 14
HOTHER: WORD 0                  ; 15: from the other
HME:    WORD 0                  ; 16: to me
; The blocks of the calls
OPENI:  WORD 400000,,0
        SIXBIT OPEN
        WORD 1000,,TTYI
        WORD 400000,,TTY
OPENO:  WORD 400000,,0
        SIXBIT OPEN
        WORD 5000,,1
        WORD 1000,,TTYO
        WORD 400000,,TTY
GETME:  WORD 400000,,0
        SIXBIT USRVAR
        WORD 1000,,777777
        WORD 0,,UNAME
        WORD 402000,,A
OPENL:  WORD 400000,,0
        SIXBIT OPEN
        WORD 5000,,1
        WORD 1000,,SEND
        WORD 0,,LNK
        WORD 0,,HME
        WORD 400000,,HOTHER
NEW:    WORD 400000,,0
        SIXBIT OPEN
        WORD 5000,,1
        WORD 1000,,INF
        WORD 0,,USR
        WORD 0,,HME
        WORD 400000,,JHEAR
PUT:    WORD 400000,,0
        SIXBIT SIOT
        WORD 1000,,INF
        WORD 0,,POINT
        WORD 400000,,LENGTH
SETPC:  WORD 400000,,0
        SIXBIT USRVAR
        WORD 1000,,INF
        WORD 0,,UPC
        WORD 401000,,1
RUNON:  WORD 400000,,0
        SIXBIT USRVAR
        WORD 1000,,INF
        WORD 0,,USTP
        WORD 401000,,0
CLEAR:  WORD 400000,,0
        SIXBIT USRVAR
        WORD 1000,,INF
        WORD 0,,PIRQC
        WORD 401000,,0
GETW:   WORD 400000,,0
        SIXBIT USRMEM
        WORD 1000,,INF
        WORD 1000,,0
        WORD 402000,,W
SETM:   WORD 400000,,0
        SIXBIT USRVAR
        WORD 1000,,777777
        WORD 0,,MASK
        WORD 401000,,INFBIT
SEND1:  WORD 400000,,0
        SIXBIT SIOT
        WORD 1000,,SEND
        WORD 0,,FROM
        WORD 400000,,COUNT
DIS:    WORD 400000,,0
        SIXBIT DISMIS
        WORD 400000,,P
OUT:    WORD 400000,,0
        SIXBIT LOGOUT
        WORD 405000,,0
TTY:    SIXBIT TTY
LNK:    SIXBIT LNK
USR:    SIXBIT USR
JHEAR:  SIXBIT HEAR
UNAME:  SIXBIT UNAME
UPC:    SIXBIT UPC
USTP:   SIXBIT USTP
PIRQC:  SIXBIT PIRQC
MASK:   SIXBIT MASK
POINT:  WORD 444400,,HEAR
LENGTH: WORD 17
FROM:   WORD 0
COUNT:  WORD 0
BYTE:   WORD 0
STACK:  LOC .+100
        GO START
