; MAIL NAME: lines for another person, up to one that is a dot alone. They are added to the file NAME;MAIL BOX, which PRINT MAIL BOX shows to the one
; who has that name.
;
; A draft takes the place of the file, because no call adds words to one. So that two writers do not lose each other's lines, the writing end of a link
; is the lock: only one job can open it.
        JOB ITS MAIL 0
CH = 1                          ; a byte in hand; A comes after it, for LSHC
A = 2
B = 3
N = 6                           ; a count
T = 7                           ; a text
TO = 10                         ; where the next byte of the text goes
P = 17                          ; the stack
TTYI = 1
TTYO = 2
OLD = 3
NEW = 4
LOCK = 5
MOST = 400                      ; words of the lines
OTHER = 20                      ; the argument
        LOC 100
START:  MOVE P,[777700,,STACK-1]
        .CALL OPENI
        .BREAK 16,
        .CALL OPENO
        .BREAK 16,
        MOVEI T,MWHOM
        SKIPN OTHER
        JRST LEAVE
        .CALL GETME
        .BREAK 16,
        MOVEI T,MDOT
        PUSHJ P,SAY
; The head: FROM and a name
        MOVE TO,[440700,,TEXT]
        MOVE A,FROM
        PUSHJ P,SIXIN
        MOVE A,ME
        PUSHJ P,SIXIN
LINE:   MOVEI CH,15
        IDPB CH,TO
        MOVEI CH,12
        IDPB CH,TO
        .IOT TTYO,[15]
        .IOT TTYO,[12]
        MOVEI N,0               ; bytes of the line
NEXT:   .IOT TTYI,CH
        CAIN CH,15
        JRST ENDED
        CAIGE CH,40
        JRST BELL
        CAIN CH,177             ; a rubout takes all of the line back: pointers do not go backwards
        JRST RUB
        CAIL N,100
        JRST BELL
        HRRZ A,TO
        CAIL A,TEXT+MOST-20
        JRST BELL
        JUMPN N,NEXT1
        MOVEM TO,SINCE
        MOVEM CH,FIRST
NEXT1:  .IOT TTYO,CH
        IDPB CH,TO
        AOJA N,NEXT
BELL:   .IOT TTYO,[7]
        JRST NEXT
RUB:    JUMPE N,NEXT
        MOVE TO,SINCE
RUB1:   .IOT TTYO,[10]
        .IOT TTYO,[40]
        .IOT TTYO,[10]
        SOJG N,RUB1
        JRST NEXT
ENDED:  CAIE N,1
        JRST LINE
        MOVE A,FIRST
        CAIE A,56               ; a dot alone
        JRST LINE
        MOVE TO,SINCE
        MOVEI CH,0              ; zeros up to the end of the word
PAD:    IDPB CH,TO
        TLNE TO,360000
        JRST PAD
; The lock; another one may have it for a while
        .IOT TTYO,[15]
        .IOT TTYO,[12]
GET:    .CALL OPENL
        JRST WAIT
        .CALL OPENW
        JRST FAILED
        .CALL OPENR
        JRST COPIED             ; there was no mail
COPY:   .IOT OLD,A
        CAMN A,[777777,,3]
        JRST COPY1
        .IOT NEW,A
        JRST COPY
COPY1:  .CALL CLOSEO
        JRST FAILED
COPIED: MOVEI B,TEXT
PUT:    .IOT NEW,(B)
        HRRZ A,TO
        CAMGE B,A
        AOJA B,PUT
SHUT:   .CALL CLOSEN
        JRST WAITR
        MOVEI T,MSENT
LEAVE:  PUSHJ P,SAY
        .CALL OUT               ; which opens the lock, too
        .BREAK 16,
FAILED: MOVEI T,MFAIL
        JRST LEAVE
WAIT:   PUSHJ P,SECOND
        JRST GET
WAITR:  MOVE A,ERR
        CAIE A,11               ; somebody reads the file
        JRST FAILED
        PUSHJ P,SECOND
        JRST SHUT
SECOND: MOVEI A,36
        MOVEM A,TIME
        .CALL SLEEP
        .BREAK 16,
        POPJ P,
; A name in SIXBIT, and a blank, into the text
SIXIN:  MOVEI CH,0
        LSHC CH,6
        ADDI CH,40
        IDPB CH,TO
        JUMPN A,SIXIN
        MOVEI CH,40
        IDPB CH,TO
        POPJ P,
; A text of words in SIXBIT, with blanks after words of less than six bytes, and a new line
SAY:    SKIPN A,(T)
        JRST CRLF
        MOVEI N,6
SAY1:   MOVEI CH,0
        LSHC CH,6
        ADDI CH,40
        .IOT TTYO,CH
        SOJE N,SAY2
        JUMPN A,SAY1
        .IOT TTYO,[40]
SAY2:   AOJA T,SAY
CRLF:   .IOT TTYO,[15]
        .IOT TTYO,[12]
        POPJ P,
MWHOM:  SIXBIT MAIL
        SIXBIT TO
        SIXBIT WHOM?
        WORD 0
MDOT:   SIXBIT A
        SIXBIT DOT
        SIXBIT ALONE
        SIXBIT ENDS
        SIXBIT IT.
        WORD 0
MSENT:  SIXBIT SENT.
        WORD 0
MFAIL:  SIXBIT IT
        SIXBIT COULD
        SIXBIT NOT
        SIXBIT BE
        SIXBIT SENT.
        WORD 0
; The blocks of the calls
OPENI:  WORD 400000,,0
        SIXBIT OPEN
        WORD 1000,,TTYI
        WORD 400000,,TTY
OPENO:  WORD 400000,,0
        SIXBIT OPEN
        WORD 5000,,1
        WORD 1000,,TTYO
        WORD 400000,,TTY
GETME:  WORD 400000,,0
        SIXBIT USRVAR
        WORD 1000,,777777
        WORD 0,,UNAME
        WORD 402000,,ME
OPENL:  WORD 400000,,0
        SIXBIT OPEN
        WORD 5000,,1
        WORD 1000,,LOCK
        WORD 0,,LNK
        WORD 0,,OTHER
        WORD 400000,,MAIL
OPENW:  WORD 400000,,0
        SIXBIT OPEN
        WORD 5000,,1
        WORD 1000,,NEW
        WORD 0,,DSK
        WORD 0,,MAIL
        WORD 0,,BOX
        WORD 400000,,OTHER
OPENR:  WORD 400000,,0
        SIXBIT OPEN
        WORD 1000,,OLD
        WORD 0,,DSK
        WORD 0,,MAIL
        WORD 0,,BOX
        WORD 400000,,OTHER
CLOSEO: WORD 400000,,0
        SIXBIT CLOSE
        WORD 401000,,OLD
CLOSEN: WORD 400000,,0
        SIXBIT CLOSE
        WORD 1000,,NEW
        WORD 403000,,ERR
SLEEP:  WORD 400000,,0
        SIXBIT SLEEP
        WORD 400000,,TIME
OUT:    WORD 400000,,0
        SIXBIT LOGOUT
        WORD 405000,,0
TTY:    SIXBIT TTY
DSK:    SIXBIT DSK
LNK:    SIXBIT LNK
UNAME:  SIXBIT UNAME
MAIL:   SIXBIT MAIL
BOX:    SIXBIT BOX
FROM:   SIXBIT FROM
ME:     WORD 0
SINCE:  WORD 0
FIRST:  WORD 0
TIME:   WORD 0
ERR:    WORD 0
TEXT:   LOC .+MOST
STACK:  LOC .+100
        GO START
