; The command job of a console: one logs in here, starts a program as an inferior, stops it with Control-Z, looks at it and lets it go on.
; README.md in this folder has the commands. The host gives each console such a job, which never logs out.
;
; HALT at another console asks for a stop of the program here. No job can stop one that is not its inferior, and no interrupt comes from a link. So an
; inferior, the listener, waits at a link whose names are those of the console and HALT. What it does about a request is the word EACT, which is
; executed, and which this job writes: a jump to an answer, or, as long as a program runs and its owner does not refuse, .BREAK. That stops the
; listener and sets INF here, as if the program had stopped; so this job stops the program, and lets the listener go on and answer.
        JOB ITS HACTRN 0
CH = 1                          ; a byte in hand; A comes after it, for LSHC
A = 2
B = 3
C = 4
I = 5                           ; how far the line is read
N = 6                           ; a count
T = 7                           ; a text
V = 10                          ; a value
F = 11                          ; words of a file that are read
P = 17                          ; the stack
TTYI = 1                        ; channels
TTYO = 2
INF = 3                         ; the inferior
FIL = 4                         ; a file
EARC = 5                        ; the listener
ASKR = 6                        ; HALT: the link of the answer, and that of the request
ASKW = 7
INFBIT = 200                    ; the interrupt of an inferior that stopped; Control-Z is bit 1 of the second word
MOST = 100                      ; bytes of a line
        LOC 42
        WORD 777772,,TSINT
        LOC 100
TSINT:  WORD 0,,P
        WORD 0,,INFBIT
        WORD 1
        WORD 0,,INFBIT
        WORD 1
        WORD 0,,HANDLE
START:  MOVE P,[777700,,STACK-1]
        .CALL OPENI
        .BREAK 16,
        .CALL OPENO
        .BREAK 16,
        .CALL GETCON            ; the console, as a digit of its names
        .BREAK 16,
        MOVE A,CONSOL
        LSH A,14                ; TTY0 has its digit in the fourth byte
        ADD A,TTY0
        MOVEM A,MYTTY
        MOVEI T,HELLO
        PUSHJ P,SAY
        MOVE CH,CONSOL
        ADDI CH,60
        .IOT TTYO,CH
        MOVEI T,HELLO2
        PUSHJ P,SAYLN
; A command
PROMPT: MOVE P,[777700,,STACK-1]
        PUSHJ P,CRLF
        .IOT TTYO,[52]          ; *
        PUSHJ P,GETLIN
        PUSHJ P,CRLF
        MOVEI I,0
        PUSHJ P,WORDIN
        JUMPE A,PROMPT
        MOVEI N,0
LOOKUP: SKIPN B,NAMES(N)        ; is it a command?
        JRST RUNIT              ; else it is a program
        CAME A,B
        AOJA N,LOOKUP
        PUSHJ P,@DOES(N)
        JRST PROMPT
NAMES:  SIXBIT LOGIN
        SIXBIT LOGOUT
        SIXBIT WHO
        SIXBIT LIST
        SIXBIT HELP
        SIXBIT ?
        SIXBIT PRINT
        SIXBIT DELETE
        SIXBIT CONT
        SIXBIT KILL
        SIXBIT EXAM
        SIXBIT DEP
        SIXBIT BREAK
        SIXBIT HALT
        SIXBIT REFUSE
        WORD 0
DOES:   WORD 0,,LOGIN
        WORD 0,,LOGOUT
        WORD 0,,WHO
        WORD 0,,LIST
        WORD 0,,HELP
        WORD 0,,HELP
        WORD 0,,PRINT
        WORD 0,,DELETE
        WORD 0,,CONT
        WORD 0,,KILL
        WORD 0,,EXAM
        WORD 0,,DEP
        WORD 0,,BREAK
        WORD 0,,HALT
        WORD 0,,REFUSE
; LOGIN NAME: the name is kept here, for no call sets the user name of a job, and in the file WHO;TTYn USER for others to find. Before that there is a
; listener, so one who finds the file is answered.
LOGIN:  SKIPE ME
        JRST BUSY
        PUSHJ P,WORDIN
        JUMPE A,WHAT
        PUSH P,A
        PUSHJ P,EARUP
        JRST NOEAR
        POP P,ME
        .CALL WHOOUT
        JRST FAILED
        .IOT FIL,ME
LOGIN1: .CALL CLOSEF
        CAIA
        POPJ P,
        MOVE A,ERR
        CAIN A,11               ; somebody reads the file just now
        JRST LOGIN1
        JRST FAILED
NOEAR:  POP P,A
        JRST FAILED
BUSY:   MOVEI T,MBUSY
        JRST SAYLN
; The listener, and a skip once it runs. It is made at the first LOGIN, and stays.
EARUP:  SKIPE HASEAR
        JRST CPOPJ1
        .CALL EAROPN
        POPJ P,
        MOVE A,MYTTY
        MOVEM A,ETTY
        MOVE A,[444400,,EAR]
        MOVEM A,EARFRM
        MOVEI A,EAREND-EAR
        MOVEM A,EARCNT
        MOVEI V,EAR
        .CALL EARPAG
        JRST EARBAD
        .CALL EARSEK
        JRST EARBAD
        .CALL EARPUT
        JRST EARBAD
        .CALL EARSPC
        JRST EARBAD
        .CALL EARRUN
        JRST EARBAD
        SETOM HASEAR
        JRST CPOPJ1
EARBAD: .CALL EARKIL
        JFCL
        POPJ P,
LOGOUT: PUSHJ P,KILL            ; what runs here is gone
        SKIPN ME
        POPJ P,
        SETZM ME
        SETZM REFUSD
LOGOU1: .CALL WHODEL
        CAIA
        JRST LOGOU2
        MOVE A,ERR
        CAIN A,11
        JRST LOGOU1
        JRST FAILED
LOGOU2: MOVEI T,MBYE
        JRST SAYLN
; WHO: the names of those who are there, by the files that their command jobs have written
WHO:    MOVEI N,0
WHO1:   MOVE A,N
        LSH A,14
        ADD A,TTY0
        MOVEM A,ASKTTY
        .CALL WHOIN
        JRST WHO2               ; nobody
        .IOT FIL,V
        .CALL CLOSEF
        JRST FAILED
        PUSH P,N
        MOVE A,ASKTTY
        PUSHJ P,SIXOUT
        MOVE A,V
        PUSHJ P,SIXOUT
        PUSHJ P,CRLF
        POP P,N
WHO2:   CAIGE N,7
        AOJA N,WHO1
        POPJ P,
; LIST: the programs, by the file SYS;PROGS LIST
LIST:   .CALL LISTIN
        JRST FAILED
LIST1:  .IOT FIL,A
        CAMN A,[777777,,3]
        JRST LIST2
        PUSHJ P,SIXOUT
        .IOT TTYO,[40]
        JRST LIST1
LIST2:  .CALL CLOSEF
        JRST FAILED
        JRST CRLF
HELP:   MOVEI T,MHELP
        JRST SAYLN
; PRINT N1 N2 [DIR]: a file of text, five bytes a word
PRINT:  PUSHJ P,FNAME
        .CALL FILEIN
        JRST FAILED
PRINT1: .IOT FIL,A
        CAMN A,[777777,,3]
        JRST LIST2
        MOVEI N,5
PRINT2: MOVEI CH,0
        LSHC CH,7
        JUMPE CH,PRINT3
        .IOT TTYO,CH
PRINT3: SOJG N,PRINT2
        JRST PRINT1
DELETE: PUSHJ P,FNAME
        .CALL FILDEL
        JRST FAILED
        POPJ P,
; The names of a file: two, and a directory, which is one's own name if it is left out
FNAME:  PUSHJ P,WORDIN
        JUMPE A,WHATP
        MOVEM A,FN1
        PUSHJ P,WORDIN
        JUMPE A,WHATP
        MOVEM A,FN2
        PUSHJ P,WORDIN
        SKIPN A
        MOVE A,ME
        MOVEM A,FDIR
        POPJ P,
WHATP:  POP P,A                 ; the caller is left, too
WHAT:   MOVEI T,MWHAT
        JRST SAYLN
; A program, by its name: it is made an inferior with the login name as its user name, loaded, and the console is lent to it
RUNIT:  SKIPN ME
        JRST NOTIN
        SKIPE HAS
        JRST HASONE
        MOVEM A,JNAME
        .CALL OPENB             ; is there such a program?
        JRST NOPROG
        .CALL OPENJ
        JRST NOJOB
        SETOM HAS
        SETZM BRKPLC
        PUSHJ P,LOAD
        .CALL CLOSEF
        JRST GIVEUP
        PUSHJ P,ARGS
        MOVE A,STADDR
        MOVEM A,V
        .CALL SETPC
        JRST GIVEUP
        PUSHJ P,GOON
        JRST PROMPT
NOPROG: MOVEI T,MNOPRG
        JRST SAYPR
NOTIN:  MOVEI T,MLOGIN
        JRST SAYPR
HASONE: MOVEI T,MHAS
SAYPR:  PUSHJ P,SAYLN
        JRST PROMPT
NOJOB:  PUSHJ P,FAILED
        .CALL CLOSEF
        JRST PROMPT
        JRST PROMPT
GIVEUP: PUSHJ P,FAILED
        PUSHJ P,KILL
        JRST PROMPT
; The image of the file: the start; then runs of words, each after count,,address, and a 0. The symbols come after that: EXAM reads them.
LOAD:   .IOT FIL,STADDR
LOAD1:  .IOT FIL,V
        JUMPE V,CPOPJ
        HRRZ A,V                ; the pages of the run
        LSH A,777766
        HLRZ B,V
        ADDI B,0-1(V)
        HRRZ B,B
        LSH B,777766
LOAD2:  MOVEM A,PAGE
        .CALL MAKEPG
        JFCL                    ; it is there
        CAMGE A,B
        AOJA A,LOAD2
        HRRZ A,V
        MOVEM A,PLACE
        .CALL SEEK
        JRST FAILED
        HLRZ N,V
LOAD3:  .IOT FIL,A
        .IOT INF,A
        SOJG N,LOAD3
        JRST LOAD1
CPOPJ:  POPJ P,
; The words of the command line after its first are at 20 to 23 of the program, in SIXBIT
ARGS:   MOVEI A,20
        MOVEM A,PLACE
        .CALL SEEK
        POPJ P,
        MOVEI N,4
ARGS1:  PUSH P,N
        PUSHJ P,WORDIN
        .IOT INF,A
        POP P,N
        SOJG N,ARGS1
        POPJ P,
; CONT: it goes on; its console is lent to it until it stops, is gone, or Control-Z comes
CONT:   SKIPN HAS
        JRST NONE
        .CALL GETPIR
        JRST FAILED
        TRZ V,77                ; what stopped it; its other bits stay
        .CALL SETPIR
        JRST FAILED
GOON:   .CALL CLEAR1            ; of one's own pending bits: they are from before
        JRST FAILED
        .CALL CLEAR2
        JRST FAILED
        .CALL LEND
        JRST FAILED
        .CALL RUNON
        JRST FAILED
        MOVE A,EHALT            ; from here on others may ask for a stop
        SKIPE REFUSD
        MOVE A,EREF
        MOVEM A,NEWACT
        .CALL EARACT
        JRST FAILED
        .CALL MASK1
        JRST FAILED
        .CALL MASK2
        JRST FAILED
        .CALL HANG
        .BREAK 16,
HANDLE: MOVE P,[777700,,STACK-1]
        PUSH P,[0,,PROMPT]      ; what fails here leads there
        .CALL UNMSK1            ; no interrupt comes while a command is read
        JRST FAILED
        .CALL UNMSK2
        JRST FAILED
        .CALL UNDEF1
        JRST FAILED
        .CALL UNDEF2
        JRST FAILED
        SKIPE ASKING
        JRST ASKEND             ; Control-Z during a HALT
        MOVE A,EIDLE            ; from here on the listener does not stop; it may be about to
        MOVEM A,NEWACT
        .CALL EARACT
        JRST FAILED
        .CALL EARPIR
        JRST FAILED
        ANDI V,1                ; BRK
        MOVEM V,ASKED
        .CALL ISSTOP
        JRST GONE               ; it has logged out
        JUMPN V,STOPPD
        .CALL STOPIT            ; Control-Z, or somebody asks
        JRST GONE               ; it has logged out since
STOPPD: MOVEI V,ESTOP
        PUSHJ P,REPLY
        .CALL TAKE
        JRST FAILED
        PUSHJ P,CRLF
        .CALL GETPIR
        JRST FAILED
        MOVEI T,MSTOP
        TRNE V,77
        MOVEI T,MFAULT
        TRNE V,1
        MOVEI T,MBREAK
        MOVE C,V
        PUSHJ P,SAY
        TRNN C,77
        SKIPN ASKED
        JRST STOPAT
        MOVEI T,MBY
        PUSHJ P,SAY
        MOVE CH,BY
        ADDI CH,60
        .IOT TTYO,CH
        .IOT TTYO,[40]
STOPAT: MOVEI T,MAT
        PUSHJ P,SAY
        .CALL GETPC
        JRST FAILED
        HRRZ A,V
        TRNE C,1
        CAME A,BRKPLC           ; the breakpoint, which PC is past
        CAIA
        PUSHJ P,UNBRK
        HRRZ A,V
        PUSHJ P,OCT6
        JRST PROMPT
GONE:   SETZM HAS
        MOVEI V,ENONE
        PUSHJ P,REPLY
        JRST PROMPT
; The listener goes on at V, if it has stopped for a request; BY is who asks
REPLY:  SKIPN ASKED
        POPJ P,
        .CALL EARBY
        JRST FAILED
        .CALL EARSPC
        JRST FAILED
        .CALL EARCLR
        JRST FAILED
        .CALL EARRUN
        JRST FAILED
        POPJ P,
; At the breakpoint: the word that was there is put back, and PC is at it again; so CONT goes on, and the breakpoint is gone
UNBRK:  SUBI V,1
        .CALL SETPC
        JRST FAILED
        PUSH P,V
        .CALL GETPIR
        JRST FAILED
        TRZ V,77
        .CALL SETPIR
        JRST FAILED
        HRRZ A,(P)
        MOVEM A,PLACE
        MOVE V,BRKOLD
        .CALL STORE
        JRST FAILED
        SETZM BRKPLC
        POP P,V
        POPJ P,
NONE:   MOVEI T,MNONE
        JRST SAYLN
KILL:   SKIPN HAS
        POPJ P,
        SETZM HAS
        .CALL UCLOS
        JRST FAILED
        POPJ P,
; HALT N: asks the listener of console N. The reading end of the link of the answer is opened first: only one job can open it, so one asks at a time.
; The request is in its link until it is answered, because its writing end stays open. One may leave by Control-Z.
HALT:   MOVEI T,MLOGIN
        SKIPN ME
        JRST SAYLN
        PUSHJ P,WORDIN
        TDNE A,[7777,,777777]   ; one byte
        JRST WHAT
        LSH A,0-36
        SUBI A,20               ; a digit in SIXBIT
        JUMPL A,WHAT
        CAILE A,7
        JRST WHAT
        LSH A,14
        ADD A,TTY0
        MOVEM A,ASKTTY
        MOVEI T,MNOBDY
        .CALL WHOIN
        JRST SAYLN
        .CALL CLOSEF
        JRST FAILED
        .CALL ASKOPR
        JRST ASKBSY
        .CALL ASKOPW
        JRST ASKBS1
        .CALL CLEAR2
        JRST FAILED
        SETOM ASKING
        .CALL MASK2
        JRST FAILED
        MOVE A,[444400,,CONSOL]
        MOVEM A,ASKFRM
        MOVEI A,1
        MOVEM A,ASKCNT
        MOVNI V,1
        .CALL ASKSND
        CAIA                    ; the listener closes its end just now
        .IOT ASKR,V
        .CALL UNMSK2
        JRST FAILED
        PUSHJ P,ASKSHT
        MOVEI T,MNOANS
        CAIN V,0
        MOVEI T,MNORUN
        CAIN V,1
        MOVEI T,MDONE
        CAIN V,2
        MOVEI T,MREFUS
        JRST SAYLN
ASKEND: PUSHJ P,ASKSHT
        MOVEI T,MNOANS
        JRST SAYLN
ASKBS1: PUSHJ P,ASKSHT
ASKBSY: MOVE A,ERR
        CAIE A,24               ; somebody else asks there, or has just been answered
        JRST FAILED
        MOVEI T,MOTHER
        JRST SAYLN
ASKSHT: SETZM ASKING
        .CALL ASKCLR
        JFCL
        .CALL ASKCLW
        JFCL
        POPJ P,
; REFUSE ON, REFUSE OFF, REFUSE: whether such requests are refused
REFUSE: PUSHJ P,WORDIN
        JUMPE A,REFUS1
        CAMN A,ON
        JRST REFON
        CAME A,OFF
        JRST WHAT
        SETZM REFUSD
        JRST REFUS1
REFON:  SETOM REFUSD
REFUS1: MOVEI T,MREFOF
        SKIPE REFUSD
        MOVEI T,MREFON
        JRST SAYLN
; EXAM PLACE [COUNT], DEP PLACE WORD, BREAK PLACE: a place is a number, a symbol of the program, or a sum
EXAM:   SKIPN HAS
        JRST NONE
        PUSHJ P,NUMIN
        JRST WHAT
        MOVEM V,PLACE
        PUSHJ P,NUMIN
        MOVEI V,1
        MOVE N,V
EXAM1:  PUSH P,N
        MOVE A,PLACE
        PUSHJ P,OCT6
        .IOT TTYO,[57]
        .IOT TTYO,[40]
        .CALL LOOK
        JRST EXAM2
        MOVE A,V
        PUSHJ P,OCT12
        PUSHJ P,CRLF
        AOS PLACE
        POP P,N
        SOJG N,EXAM1
        POPJ P,
EXAM2:  POP P,N
        JRST FAILED
DEP:    SKIPN HAS
        JRST NONE
        PUSHJ P,NUMIN
        JRST WHAT
        MOVEM V,PLACE
        PUSHJ P,NUMIN
        JRST WHAT
        .CALL STORE
        JRST FAILED
        POPJ P,
BREAK:  SKIPN HAS
        JRST NONE
        PUSHJ P,NUMIN
        JRST WHAT
        MOVEM V,PLACE
        SKIPE BRKPLC
        JRST WHAT               ; there is one
        .CALL PLANT
        JRST FAILED
        AOS PLACE
        MOVE A,PLACE
        MOVEM A,BRKPLC
        POPJ P,
; A number of the line in V, and a skip; no skip if there is none. A term is octal digits or a symbol; terms have + between them.
NUMIN:  PUSHJ P,TERM
        POPJ P,
        AOS (P)
NUMIN1: MOVE CH,LINE(I)
        CAIE CH,53              ; +
        POPJ P,
        ADDI I,1
        PUSH P,V
        PUSHJ P,TERM
        MOVEI V,0
        POP P,A
        ADD V,A
        JRST NUMIN1
TERM:   PUSHJ P,WORDIN
        JUMPE A,CPOPJ
        MOVEI V,0
        MOVE CH,FIRST
        CAIL CH,60
        CAILE CH,67
        JRST SYM
        MOVE I,FIRSTI
DIGIT:  MOVE CH,LINE(I)
        CAIL CH,60
        CAILE CH,67
        JRST CPOPJ1
        LSH V,3
        ADDI V,0-60(CH)
        AOJA I,DIGIT
CPOPJ1: AOS (P)
        POPJ P,
; A symbol, by the file of the program: after the 0 that ends its words, each name and its value
SYM:    MOVE B,A
        .CALL OPENB
        POPJ P,
        .IOT FIL,V
SYM1:   .IOT FIL,V
        JUMPE V,SYM2
        HLRZ N,V
        .IOT FIL,V
        SOJG N,.-1
        JRST SYM1
SYM2:   .IOT FIL,A
        CAMN A,[777777,,3]
        JRST SYM3               ; there is no such symbol
        .IOT FIL,V
        CAME A,B
        JRST SYM2
        AOS (P)
SYM3:   .CALL CLOSEF
        POPJ P,
        POPJ P,
; A line, into LINE, a byte in each word, and 0 at its end. A rubout takes the last byte back, Control-U all.
GETLIN: MOVEI N,0
GETCH:  .IOT TTYI,CH
        CAIN CH,15
        JRST GETEND
        CAIN CH,177
        JRST RUB
        CAIN CH,25
        JRST RUBALL
        CAIL CH,40
        CAIL N,MOST
        JRST BELL
        MOVEM CH,LINE(N)
        .IOT TTYO,CH
        AOJA N,GETCH
BELL:   .IOT TTYO,[7]
        JRST GETCH
RUB:    JUMPE N,GETCH
        PUSHJ P,RUBONE
        JRST GETCH
RUBALL: JUMPE N,GETCH
        PUSHJ P,RUBONE
        JRST RUBALL
RUBONE: SUBI N,1
        .IOT TTYO,[10]
        .IOT TTYO,[40]
        .IOT TTYO,[10]
        POPJ P,
GETEND: SETZM LINE(N)
        POPJ P,
; The next word of the line in A, in SIXBIT; 0 if there is none. A plus sign ends it, so that sums can be read.
WORDIN: MOVEI A,0
        MOVE B,[440600,,A]
        MOVE CH,LINE(I)
        CAIN CH,40
        AOJA I,WORDIN
        MOVEM CH,FIRST
        MOVEM I,FIRSTI
WORD1:  MOVE CH,LINE(I)
        CAILE CH,40
        CAIN CH,53
        POPJ P,
        CAIL CH,141             ; a small letter
        SUBI CH,40
        SUBI CH,40
        TLNE B,770000
        IDPB CH,B
        AOJA I,WORD1
; Output: a text of SIXBIT words; a word in SIXBIT, and a blank if it has less than six bytes; octal numbers
SAYLN:  PUSHJ P,SAY
CRLF:   .IOT TTYO,[15]
        .IOT TTYO,[12]
        POPJ P,
SAY:    MOVE A,(T)
        CAMN A,[777777,,777777]
        POPJ P,
        PUSHJ P,SIXOUT
        AOJA T,SAY
SIXOUT: MOVEI N,6
SIX1:   JUMPE A,BLANK
        MOVEI CH,0
        LSHC CH,6
        ADDI CH,40
        .IOT TTYO,CH
        SOJG N,SIX1
        POPJ P,
BLANK:  .IOT TTYO,[40]
        POPJ P,
OCT12:  MOVEI N,14
        JRST OCT
OCT6:   MOVS A,A
        MOVEI N,6
OCT:    ROT A,3
        MOVE CH,A
        ANDI CH,7
        ADDI CH,60
        .IOT TTYO,CH
        SOJG N,OCT
        POPJ P,
; A call has failed: its number
FAILED: MOVEI T,MERR
        PUSHJ P,SAY
        MOVE A,ERR
        MOVEI N,2
        ROT A,36
        PUSHJ P,OCT
        JRST CRLF
; Texts
HELLO:  SIXBIT ITS,
        SIXBIT CONSOL
        SIXBIT E
        WORD 777777777777
HELLO2: SIXBIT .
        SIXBIT LOGIN
        SIXBIT NAME,
        SIXBIT HELP
        WORD 777777777777
MHELP:  SIXBIT LOGIN
        SIXBIT NAME,
        SIXBIT LOGOUT
        SIXBIT ,
        SIXBIT WHO,
        SIXBIT LIST,
        SIXBIT PRINT
        SIXBIT N1
        SIXBIT N2
        SIXBIT [DIR],
        WORD 0
        SIXBIT DELETE
        WORD 0
        SIXBIT N1
        SIXBIT N2
        SIXBIT [DIR],
        WORD 0
        SIXBIT CONT,
        SIXBIT KILL,
        SIXBIT EXAM
        SIXBIT PLACE
        SIXBIT [N],
        SIXBIT DEP
        SIXBIT PLACE
        SIXBIT WORD,
        SIXBIT BREAK
        SIXBIT PLACE,
        WORD 0
        SIXBIT HALT
        SIXBIT CONSOL
        SIXBIT E,
        SIXBIT REFUSE
        SIXBIT [ON,
        SIXBIT OFF],
        SIXBIT OR
        SIXBIT A
        SIXBIT PROGRA
        SIXBIT M;
        SIXBIT ^Z
        SIXBIT STOPS
        SIXBIT IT.
        WORD 777777777777
MBUSY:  SIXBIT YOU
        SIXBIT ARE
        SIXBIT LOGGED
        WORD 0
        SIXBIT IN.
        WORD 777777777777
MBYE:   SIXBIT BYE.
        WORD 777777777777
MWHAT:  SIXBIT WHAT?
        WORD 777777777777
MLOGIN: SIXBIT LOGIN
        SIXBIT FIRST.
        WORD 777777777777
MNOPRG: SIXBIT NO
        SIXBIT SUCH
        SIXBIT PROGRA
        SIXBIT M.
        WORD 777777777777
MHAS:   SIXBIT A
        SIXBIT PROGRA
        SIXBIT M
        SIXBIT IS
        SIXBIT THERE:
        WORD 0
        SIXBIT CONT
        SIXBIT OR
        SIXBIT KILL.
        WORD 777777777777
MNONE:  SIXBIT NO
        SIXBIT PROGRA
        SIXBIT M.
        WORD 777777777777
MSTOP:  SIXBIT STOPPE
        SIXBIT D
        WORD 777777777777
MFAULT: SIXBIT FAULT
        WORD 777777777777
MBREAK: SIXBIT BREAK
        WORD 777777777777
MBY:    SIXBIT BY
        SIXBIT CONSOL
        SIXBIT E
        WORD 777777777777
MAT:    SIXBIT AT
        WORD 777777777777
MNOBDY: SIXBIT NOBODY
        WORD 0
        SIXBIT IS
        SIXBIT THERE.
        WORD 777777777777
MNORUN: SIXBIT NO
        SIXBIT PROGRA
        SIXBIT M
        SIXBIT RUNS
        SIXBIT THERE.
        WORD 777777777777
MDONE:  SIXBIT IT
        SIXBIT IS
        SIXBIT STOPPE
        SIXBIT D.
        WORD 777777777777
MREFUS: SIXBIT REFUSE
        SIXBIT D.
        WORD 777777777777
MNOANS: SIXBIT NO
        SIXBIT ANSWER
        SIXBIT .
        WORD 777777777777
MOTHER: SIXBIT SOMEBO
        SIXBIT DY
        SIXBIT ELSE
        SIXBIT ASKS
        SIXBIT THERE.
        WORD 0
        SIXBIT TRY
        SIXBIT AGAIN.
        WORD 777777777777
MREFON: SIXBIT REQUES
        SIXBIT TS
        SIXBIT ARE
        SIXBIT REFUSE
        SIXBIT D.
        WORD 777777777777
MREFOF: SIXBIT REQUES
        SIXBIT TS
        SIXBIT ARE
        SIXBIT OBEYED
        SIXBIT .
        WORD 777777777777
MERR:   SIXBIT ERROR
        WORD 777777777777
; The blocks of the calls
OPENI:  WORD 400000,,0
        SIXBIT OPEN
        WORD 1000,,TTYI
        WORD 400000,,TTY
OPENO:  WORD 400000,,0
        SIXBIT OPEN
        WORD 5000,,1
        WORD 1000,,TTYO
        WORD 400000,,TTY
GETCON: WORD 400000,,0
        SIXBIT USRVAR
        WORD 1000,,777777
        WORD 0,,CNSL
        WORD 402000,,CONSOL
WHOOUT: WORD 400000,,0
        SIXBIT OPEN
        WORD 5000,,1
        WORD 1000,,FIL
        WORD 0,,DSK
        WORD 0,,MYTTY
        WORD 0,,USER
        WORD 0,,WHODIR
        WORD 403000,,ERR
WHOIN:  WORD 400000,,0
        SIXBIT OPEN
        WORD 1000,,FIL
        WORD 0,,DSK
        WORD 0,,ASKTTY
        WORD 0,,USER
        WORD 0,,WHODIR
        WORD 403000,,ERR
WHODEL: WORD 400000,,0
        SIXBIT DELETE
        WORD 0,,DSK
        WORD 0,,MYTTY
        WORD 0,,USER
        WORD 0,,WHODIR
        WORD 403000,,ERR
LISTIN: WORD 400000,,0
        SIXBIT OPEN
        WORD 1000,,FIL
        WORD 0,,DSK
        WORD 0,,PROGS
        WORD 0,,LISTN
        WORD 0,,SYS
        WORD 403000,,ERR
FILEIN: WORD 400000,,0
        SIXBIT OPEN
        WORD 1000,,FIL
        WORD 0,,DSK
        WORD 0,,FN1
        WORD 0,,FN2
        WORD 0,,FDIR
        WORD 403000,,ERR
FILDEL: WORD 400000,,0
        SIXBIT DELETE
        WORD 0,,DSK
        WORD 0,,FN1
        WORD 0,,FN2
        WORD 0,,FDIR
        WORD 403000,,ERR
OPENB:  WORD 400000,,0
        SIXBIT OPEN
        WORD 1000,,FIL
        WORD 0,,DSK
        WORD 0,,JNAME
        WORD 0,,BIN
        WORD 0,,SYS
        WORD 403000,,ERR
CLOSEF: WORD 400000,,0
        SIXBIT CLOSE
        WORD 1000,,FIL
        WORD 403000,,ERR
OPENJ:  WORD 400000,,0
        SIXBIT OPEN
        WORD 5000,,1
        WORD 1000,,INF
        WORD 0,,USR
        WORD 0,,ME
        WORD 0,,JNAME
        WORD 403000,,ERR
MAKEPG: WORD 400000,,0
        SIXBIT CORBLK
        WORD 1000,,1
        WORD 1000,,INF
        WORD 0,,PAGE
        WORD 403000,,ERR
SEEK:   WORD 400000,,0
        SIXBIT ACCESS
        WORD 1000,,INF
        WORD 0,,PLACE
        WORD 403000,,ERR
SETPC:  WORD 400000,,0
        SIXBIT USRVAR
        WORD 1000,,INF
        WORD 0,,UPC
        WORD 0,,V
        WORD 403000,,ERR
GETPC:  WORD 400000,,0
        SIXBIT USRVAR
        WORD 1000,,INF
        WORD 0,,UPC
        WORD 2000,,V
        WORD 403000,,ERR
SETPIR: WORD 400000,,0
        SIXBIT USRVAR
        WORD 1000,,INF
        WORD 0,,PIRQC
        WORD 0,,V
        WORD 403000,,ERR
GETPIR: WORD 400000,,0
        SIXBIT USRVAR
        WORD 1000,,INF
        WORD 0,,PIRQC
        WORD 2000,,V
        WORD 403000,,ERR
LEND:   WORD 400000,,0
        SIXBIT TTYLND
        WORD 1000,,INF
        WORD 403000,,ERR
TAKE:   WORD 400000,,0
        SIXBIT TTYLND
        WORD 1000,,777777
        WORD 403000,,ERR
RUNON:  WORD 400000,,0
        SIXBIT USRVAR
        WORD 1000,,INF
        WORD 0,,USTP
        WORD 1000,,0
        WORD 403000,,ERR
STOPIT: WORD 400000,,0
        SIXBIT USRVAR
        WORD 1000,,INF
        WORD 0,,USTP
        WORD 1000,,1
        WORD 403000,,ERR
ISSTOP: WORD 400000,,0
        SIXBIT USRVAR
        WORD 1000,,INF
        WORD 0,,USTP
        WORD 2000,,V
        WORD 403000,,ERR
UCLOS:  WORD 400000,,0
        SIXBIT UCLOSE
        WORD 1000,,INF
        WORD 403000,,ERR
LOOK:   WORD 400000,,0
        SIXBIT USRMEM
        WORD 1000,,INF
        WORD 0,,PLACE
        WORD 2000,,V
        WORD 403000,,ERR
STORE:  WORD 400000,,0
        SIXBIT USRMEM
        WORD 1000,,INF
        WORD 0,,PLACE
        WORD 0,,V
        WORD 403000,,ERR
PLANT:  WORD 400000,,0
        SIXBIT USRMEM
        WORD 1000,,INF
        WORD 0,,PLACE
        WORD 0,,BRKWRD
        WORD 2000,,BRKOLD
        WORD 403000,,ERR
CLEAR1: WORD 400000,,0
        SIXBIT USRVAR
        WORD 1000,,777777
        WORD 0,,PIRQC
        WORD 1000,,0
        WORD 403000,,ERR
CLEAR2: WORD 400000,,0
        SIXBIT USRVAR
        WORD 1000,,777777
        WORD 0,,IFPIR
        WORD 1000,,0
        WORD 403000,,ERR
MASK1:  WORD 400000,,0
        SIXBIT USRVAR
        WORD 1000,,777777
        WORD 0,,MASK
        WORD 1000,,INFBIT
        WORD 403000,,ERR
MASK2:  WORD 400000,,0
        SIXBIT USRVAR
        WORD 1000,,777777
        WORD 0,,MSK2
        WORD 1000,,1
        WORD 403000,,ERR
UNMSK1: WORD 400000,,0
        SIXBIT USRVAR
        WORD 1000,,777777
        WORD 0,,MASK
        WORD 1000,,0
        WORD 403000,,ERR
UNMSK2: WORD 400000,,0
        SIXBIT USRVAR
        WORD 1000,,777777
        WORD 0,,MSK2
        WORD 1000,,0
        WORD 403000,,ERR
UNDEF1: WORD 400000,,0
        SIXBIT USRVAR
        WORD 1000,,777777
        WORD 0,,DF1
        WORD 1000,,0
        WORD 403000,,ERR
UNDEF2: WORD 400000,,0
        SIXBIT USRVAR
        WORD 1000,,777777
        WORD 0,,DF2
        WORD 1000,,0
        WORD 403000,,ERR
HANG:   WORD 400000,,0
        SIXBIT HANG
        WORD 405000,,0
EAROPN: WORD 400000,,0
        SIXBIT OPEN
        WORD 5000,,1
        WORD 1000,,EARC
        WORD 0,,USR
        WORD 0,,MYTTY
        WORD 0,,HALTN
        WORD 403000,,ERR
EARPAG: WORD 400000,,0
        SIXBIT CORBLK
        WORD 1000,,1
        WORD 1000,,EARC
        WORD 1000,,1
        WORD 403000,,ERR
EARSEK: WORD 400000,,0
        SIXBIT ACCESS
        WORD 1000,,EARC
        WORD 1000,,EAR
        WORD 403000,,ERR
EARPUT: WORD 400000,,0
        SIXBIT SIOT
        WORD 1000,,EARC
        WORD 0,,EARFRM
        WORD 0,,EARCNT
        WORD 403000,,ERR
EARSPC: WORD 400000,,0
        SIXBIT USRVAR
        WORD 1000,,EARC
        WORD 0,,UPC
        WORD 0,,V
        WORD 403000,,ERR
EARRUN: WORD 400000,,0
        SIXBIT USRVAR
        WORD 1000,,EARC
        WORD 0,,USTP
        WORD 1000,,0
        WORD 403000,,ERR
EARPIR: WORD 400000,,0
        SIXBIT USRVAR
        WORD 1000,,EARC
        WORD 0,,PIRQC
        WORD 2000,,V
        WORD 403000,,ERR
EARCLR: WORD 400000,,0
        SIXBIT USRVAR
        WORD 1000,,EARC
        WORD 0,,PIRQC
        WORD 1000,,0
        WORD 403000,,ERR
EARACT: WORD 400000,,0
        SIXBIT USRMEM
        WORD 1000,,EARC
        WORD 1000,,EACT
        WORD 0,,NEWACT
        WORD 403000,,ERR
EARBY:  WORD 400000,,0
        SIXBIT USRMEM
        WORD 1000,,EARC
        WORD 1000,,EASKER
        WORD 2000,,BY
        WORD 403000,,ERR
EARKIL: WORD 400000,,0
        SIXBIT UCLOSE
        WORD 401000,,EARC
ASKOPR: WORD 400000,,0
        SIXBIT OPEN
        WORD 1000,,ASKR
        WORD 0,,LNK
        WORD 0,,ASKTTY
        WORD 0,,HALTED
        WORD 403000,,ERR
ASKOPW: WORD 400000,,0
        SIXBIT OPEN
        WORD 5000,,1
        WORD 1000,,ASKW
        WORD 0,,LNK
        WORD 0,,ASKTTY
        WORD 0,,HALTN
        WORD 403000,,ERR
ASKSND: WORD 400000,,0
        SIXBIT SIOT
        WORD 1000,,ASKW
        WORD 0,,ASKFRM
        WORD 400000,,ASKCNT
ASKCLR: WORD 400000,,0
        SIXBIT CLOSE
        WORD 401000,,ASKR
ASKCLW: WORD 400000,,0
        SIXBIT CLOSE
        WORD 401000,,ASKW
; Words
TTY:    SIXBIT TTY
DSK:    SIXBIT DSK
USR:    SIXBIT USR
LNK:    SIXBIT LNK
HALTN:  SIXBIT HALT             ; links: TTYn HALT is for requests, TTYn HALTED for answers
HALTED: SIXBIT HALTED
ON:     SIXBIT ON
OFF:    SIXBIT OFF
CNSL:   SIXBIT CNSL
UPC:    SIXBIT UPC
USTP:   SIXBIT USTP
PIRQC:  SIXBIT PIRQC
IFPIR:  SIXBIT IFPIR
MASK:   SIXBIT MASK
MSK2:   SIXBIT MSK2
DF1:    SIXBIT DF1
DF2:    SIXBIT DF2
USER:   SIXBIT USER
WHODIR: SIXBIT WHO
TTY0:   SIXBIT TTY0
PROGS:  SIXBIT PROGS
LISTN:  SIXBIT LIST
BIN:    SIXBIT BIN
SYS:    SIXBIT SYS
MYTTY:  WORD 0                  ; TTY0 to TTY7
ASKTTY: WORD 0
CONSOL: WORD 0
ME:     WORD 0                  ; the login name; 0 before
HAS:    WORD 0                  ; whether there is an inferior
JNAME:  WORD 0
FN1:    WORD 0
FN2:    WORD 0
FDIR:   WORD 0
PAGE:   WORD 0
PLACE:  WORD 0
STADDR: WORD 0
BRKWRD: .BREAK 16,
BRKPLC: WORD 0                  ; one past the breakpoint; 0 if there is none
BRKOLD: WORD 0                  ; the word that was there
HASEAR: WORD 0                  ; whether there is a listener
REFUSD: WORD 0                  ; whether requests for a stop are refused
ASKED:  WORD 0                  ; whether the listener has stopped for one
BY:     WORD 0                  ; the console that asks
ASKING: WORD 0                  ; whether an answer is waited for
NEWACT: WORD 0                  ; a word for EACT
EARFRM: WORD 0
EARCNT: WORD 0
ASKFRM: WORD 0
ASKCNT: WORD 0
FIRST:  WORD 0                  ; the first byte of a word of the line, and its place
FIRSTI: WORD 0
ERR:    WORD 0
LINE:   LOC .+MOST+1
STACK:  LOC .+100
; The program of the listener, which has it at the same addresses, all in page 1
EAR:    .CALL EOPEN             ; the reading end of the link of requests
        JRST EPAUSE
ETAKE:  .IOT 1,A
        CAMN A,EOVER            ; the asker has closed its end
        JRST ESHUT
        JUMPL A,ETAKE           ; no console
        CAILE A,7
        JRST ETAKE
        MOVEM A,EASKER
        XCT EACT
ESTOP:  MOVEI A,1
        JRST EGIVE
EREFUS: MOVEI A,2
        JRST EGIVE
ENONE:  MOVEI A,0
EGIVE:  MOVEM A,EWORD           ; the answer; SIOT fails if nobody waits for it, and is no fault as .IOT would be
        .CALL EOPENA
        JRST ETAKE
        MOVE A,EFROM0
        MOVEM A,EFROM
        MOVEI A,1
        MOVEM A,ECOUNT
        .CALL ESEND
        JFCL
        .CALL ECLOSA
        JFCL
        JRST ETAKE
ESHUT:  .CALL ECLOSE            ; the link is gone, and the next request makes a new one
        JFCL
        JRST EAR
EPAUSE: MOVEI A,36              ; there are as many links as there may be: a second later there may be one
        MOVEM A,ETIME
        .CALL ESLEEP
        JFCL
        JRST EAR
EACT:   JRST ENONE
EHALT:  .BREAK 16,              ; the three words for EACT
EREF:   JRST EREFUS
EIDLE:  JRST ENONE
EOPEN:  WORD 400000,,0
        SIXBIT OPEN
        WORD 1000,,1
        WORD 0,,ELNK
        WORD 0,,ETTY
        WORD 400000,,EHALTN
EOPENA: WORD 400000,,0
        SIXBIT OPEN
        WORD 5000,,1
        WORD 1000,,2
        WORD 0,,ELNK
        WORD 0,,ETTY
        WORD 400000,,EHALTD
ESEND:  WORD 400000,,0
        SIXBIT SIOT
        WORD 1000,,2
        WORD 0,,EFROM
        WORD 400000,,ECOUNT
ECLOSA: WORD 400000,,0
        SIXBIT CLOSE
        WORD 401000,,2
ECLOSE: WORD 400000,,0
        SIXBIT CLOSE
        WORD 401000,,1
ESLEEP: WORD 400000,,0
        SIXBIT SLEEP
        WORD 400000,,ETIME
EOVER:  WORD 777777,,3
EFROM0: WORD 444400,,EWORD
ELNK:   SIXBIT LNK
EHALTN: SIXBIT HALT
EHALTD: SIXBIT HALTED
ETTY:   WORD 0                  ; TTY0 to TTY7
EASKER: WORD 0                  ; the console that asks
EWORD:  WORD 0
EFROM:  WORD 0
ECOUNT: WORD 0
ETIME:  WORD 0
EAREND: GO START
