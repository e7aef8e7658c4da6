; EDIT N1 N2 [DIR]: a file of text, line by line. L shows the lines with their numbers, I N puts lines before line N (without N at the end) up to a
; line that is a dot alone, D N deletes line N, W writes the file, Q leaves without writing.
        JOB ITS EDIT 0
CH = 1                          ; a byte in hand; A comes after it, for LSHC
A = 2
B = 3
C = 4
I = 5                           ; how far the line is read
N = 6                           ; a count
T = 7                           ; a text
V = 10                          ; a number
E = 11                          ; how many bytes the text has
AT = 12                         ; the place of a byte of the text
K = 13
P = 17                          ; the stack
TTYI = 1
TTYO = 2
FIL = 3
MOST = 100                      ; bytes of a line
BUF = 4000                      ; the text, a byte in each word: lines ended by a return
ROOM = 14000                    ; so many words it may have
NAME1 = 20                      ; the arguments
NAME2 = 21
DIR = 22
        LOC 100
START:  MOVE P,[777700,,STACK-1]
        .CALL OPENI
        .BREAK 16,
        .CALL OPENO
        .BREAK 16,
        MOVEI A,2               ; the pages of the text
PAGES:  MOVEM A,PAGE
        .CALL MAKEPG
        .BREAK 16,
        CAIGE A,7
        AOJA A,PAGES
        MOVEI E,0
        SKIPN NAME2
        JRST NOFILE
        SKIPE DIR
        JRST READ
        .CALL GETME
        .BREAK 16,
READ:   .CALL OPENR
        JRST NEWFIL
READ1:  .IOT FIL,A
        CAMN A,[777777,,3]
        JRST READ3
        MOVEI N,5
READ2:  MOVEI CH,0
        LSHC CH,7
        CAIE CH,0               ; a 0 fills a word, and a line feed follows each return
        CAIN CH,12
        JRST READ4
        CAIGE E,ROOM
        MOVEM CH,BUF(E)
        CAIGE E,ROOM
        ADDI E,1
READ4:  SOJG N,READ2
        JRST READ1
READ3:  .CALL CLOSEF
        .BREAK 16,
        JRST CMD
NOFILE: MOVEI T,MWHICH
        PUSHJ P,SAY
        JRST QUIT
NEWFIL: MOVEI T,MNEW
        PUSHJ P,SAY
; A command
CMD:    MOVE P,[777700,,STACK-1]
        .IOT TTYO,[76]          ; >
        PUSHJ P,GETLIN
        MOVE CH,LINE
        CAIL CH,141
        SUBI CH,40
        CAIN CH,114             ; L
        JRST SHOW
        CAIN CH,111             ; I
        JRST INSERT
        CAIN CH,104             ; D
        JRST DELETE
        CAIN CH,127             ; W
        JRST WRITE
        CAIN CH,121             ; Q
        JRST QUIT
WHAT:   MOVEI T,MWHAT
        PUSHJ P,SAY
        JRST CMD
QUIT:   .CALL OUT
        .BREAK 16,
; L
SHOW:   MOVEI AT,0
        MOVEI K,1
SHOW1:  CAML AT,E
        JRST CMD
        MOVE A,K
        PUSHJ P,OCT3
        .IOT TTYO,[40]
SHOW2:  MOVE CH,BUF(AT)
        ADDI AT,1
        CAIN CH,15
        JRST SHOW3
        .IOT TTYO,CH
        JRST SHOW2
SHOW3:  PUSHJ P,CRLF
        AOJA K,SHOW1
; The place of line V in AT, and a skip; no skip if there are fewer lines
FIND:   MOVEI AT,0
FIND1:  SOJLE V,FIND3
FIND2:  CAML AT,E
        POPJ P,
        MOVE CH,BUF(AT)
        ADDI AT,1
        CAIE CH,15
        JRST FIND2
        JRST FIND1
FIND3:  AOS (P)
        POPJ P,
; I: each line is put in at AT
INSERT: PUSHJ P,NUMBER
        MOVE AT,E
        JUMPE V,INS1
        PUSHJ P,FIND
        JRST WHAT
INS1:   PUSHJ P,GETLIN          ; N is its length
        MOVE CH,LINE
        CAIN N,1
        CAIE CH,56
        JRST INS2
        JRST CMD
INS2:   MOVEI K,1(N)            ; with the return
        MOVE A,E
        ADD A,K
        CAIL A,ROOM
        JRST FULL
        MOVE C,E                ; what follows is moved up
INS3:   SUBI C,1
        CAMGE C,AT
        JRST INS4
        MOVE A,BUF(C)
        MOVE B,C
        ADD B,K
        MOVEM A,BUF(B)
        JRST INS3
INS4:   MOVEI CH,15
        MOVEM CH,LINE(N)
        MOVEI C,0
INS5:   MOVE A,LINE(C)
        MOVEM A,BUF(AT)
        ADDI AT,1
        ADDI C,1
        CAMGE C,K
        JRST INS5
        ADD E,K
        JRST INS1
FULL:   MOVEI T,MFULL
        PUSHJ P,SAY
        JRST CMD
; D
DELETE: PUSHJ P,NUMBER
        JUMPE V,WHAT
        PUSHJ P,FIND
        JRST WHAT
        CAML AT,E
        JRST WHAT
        MOVE C,AT
DEL1:   MOVE CH,BUF(C)
        ADDI C,1
        CAIE CH,15
        JRST DEL1
DEL2:   CAML C,E
        JRST DEL3
        MOVE A,BUF(C)
        MOVEM A,BUF(AT)
        ADDI AT,1
        AOJA C,DEL2
DEL3:   MOVE E,AT
        JRST CMD
; W: five bytes a word, a line feed after each return, and zeros at the end
WRITE:  .CALL OPENW
        JRST FAILED
        MOVEI AT,0
        PUSHJ P,NEWWD
WRITE1: CAML AT,E
        JRST WRITE2
        MOVE CH,BUF(AT)
        ADDI AT,1
        PUSHJ P,PUTCH
        CAIE CH,15
        JRST WRITE1
        MOVEI CH,12
        PUSHJ P,PUTCH
        JRST WRITE1
WRITE2: CAME B,[440700,,WD]
        .IOT FIL,WD
WRITE3: .CALL CLOSEF
        JRST WRITE4
        MOVEI T,MDONE
        PUSHJ P,SAY
        JRST CMD
WRITE4: MOVE A,ERR
        CAIE A,11               ; somebody reads the old file
        JRST FAILED
        MOVEI A,36
        MOVEM A,TIME
        .CALL SLEEP
        .BREAK 16,
        JRST WRITE3
PUTCH:  IDPB CH,B
        CAME B,[010700,,WD]     ; the word is full
        POPJ P,
        .IOT FIL,WD
NEWWD:  SETZM WD
        MOVE B,[440700,,WD]
        POPJ P,
FAILED: MOVEI T,MERR
        PUSHJ P,SAY
        MOVE A,ERR
        PUSHJ P,OCT3
        PUSHJ P,CRLF
        JRST CMD
; The number after the first byte of the line in V; 0 if there is none
NUMBER: MOVEI V,0
        MOVEI I,1
NUM1:   MOVE CH,LINE(I)
        CAIN CH,40
        AOJA I,NUM1
        CAIL CH,60
        CAILE CH,67
        POPJ P,
        LSH V,3
        ADDI V,0-60(CH)
        AOJA I,NUM1
; A line, into LINE, a byte in each word, and 0 at its end; N is its length. A rubout takes the last byte back.
GETLIN: MOVEI N,0
GETCH:  .IOT TTYI,CH
        CAIN CH,15
        JRST GETEND
        CAIN CH,177
        JRST RUB
        CAIL CH,40
        CAIL N,MOST
        JRST BELL
        MOVEM CH,LINE(N)
        .IOT TTYO,CH
        AOJA N,GETCH
BELL:   .IOT TTYO,[7]
        JRST GETCH
RUB:    SOJL N,GETLIN
        .IOT TTYO,[10]
        .IOT TTYO,[40]
        .IOT TTYO,[10]
        JRST GETCH
GETEND: SETZM LINE(N)
CRLF:   .IOT TTYO,[15]
        .IOT TTYO,[12]
        POPJ P,
; A text of words in SIXBIT, with blanks after words of less than six bytes, and a new line
SAY:    SKIPN A,(T)
        JRST CRLF
        MOVEI N,6
SAY1:   MOVEI CH,0
        LSHC CH,6
        ADDI CH,40
        .IOT TTYO,CH
        SOJE N,SAY2
        JUMPN A,SAY1
        .IOT TTYO,[40]
SAY2:   AOJA T,SAY
OCT3:   ROT A,33
        MOVEI N,3
OCT:    ROT A,3
        MOVE CH,A
        ANDI CH,7
        ADDI CH,60
        .IOT TTYO,CH
        SOJG N,OCT
        POPJ P,
MWHICH: SIXBIT EDIT
        SIXBIT WHICH
        SIXBIT FILE?
        WORD 0
MNEW:   SIXBIT NEW
        SIXBIT FILE.
        WORD 0
MWHAT:  SIXBIT WHAT?
        WORD 0
MFULL:  SIXBIT FULL.
        WORD 0
MDONE:  SIXBIT WRITTE
        SIXBIT N.
        WORD 0
MERR:   SIXBIT ERROR
        WORD 0
; The blocks of the calls
OPENI:  WORD 400000,,0
        SIXBIT OPEN
        WORD 1000,,TTYI
        WORD 400000,,TTY
OPENO:  WORD 400000,,0
        SIXBIT OPEN
        WORD 5000,,1
        WORD 1000,,TTYO
        WORD 400000,,TTY
MAKEPG: WORD 400000,,0
        SIXBIT CORBLK
        WORD 1000,,1
        WORD 1000,,777777
        WORD 400000,,PAGE
GETME:  WORD 400000,,0
        SIXBIT USRVAR
        WORD 1000,,777777
        WORD 0,,UNAME
        WORD 402000,,DIR
OPENR:  WORD 400000,,0
        SIXBIT OPEN
        WORD 1000,,FIL
        WORD 0,,DSK
        WORD 0,,NAME1
        WORD 0,,NAME2
        WORD 400000,,DIR
OPENW:  WORD 400000,,0
        SIXBIT OPEN
        WORD 5000,,1
        WORD 1000,,FIL
        WORD 0,,DSK
        WORD 0,,NAME1
        WORD 0,,NAME2
        WORD 0,,DIR
        WORD 403000,,ERR
CLOSEF: WORD 400000,,0
        SIXBIT CLOSE
        WORD 1000,,FIL
        WORD 403000,,ERR
SLEEP:  WORD 400000,,0
        SIXBIT SLEEP
        WORD 400000,,TIME
OUT:    WORD 400000,,0
        SIXBIT LOGOUT
        WORD 405000,,0
TTY:    SIXBIT TTY
DSK:    SIXBIT DSK
UNAME:  SIXBIT UNAME
PAGE:   WORD 0
TIME:   WORD 0
WD:     WORD 0
ERR:    WORD 0
LINE:   LOC .+MOST+2
STACK:  LOC .+100
        GO START
