; A desk calculator in octal. One types numbers with + - * / between them, from the left to the right without precedence, and a return or =; it
; shows the result. Q leaves. Any other key gives a question mark and a new line.
        JOB ITS CALC 0
CH = 1                          ; a byte in hand
V = 2                           ; the value so far
R = 3                           ; the remainder of a division; a digit
N = 4                           ; the number that is typed
OP = 5                          ; the operation that waits for it: 0 to 3 for + - * /
K = 6                           ; digits that wait to be shown
P = 17                          ; the stack
TTYI = 1
TTYO = 2
        LOC 100
START:  MOVE P,[777700,,STACK-1]
        .CALL OPENI             ; a call that succeeds skips the instruction after it
        .BREAK 16,
        .CALL OPENO
        .BREAK 16,
NEW:    SETZB V,OP              ; 0 + ..
NUMBER: MOVEI N,0
NEXT:   .IOT TTYI,CH
        CAIE CH,161             ; q, Q
        CAIN CH,121
        JRST LEAVE
        CAIE CH,15
        CAIN CH,75              ; =
        JRST EQUALS
        .IOT TTYO,CH
        CAIL CH,60              ; 0 to 7
        CAILE CH,67
        JRST SIGN
        LSH N,3
        ADDI N,0-60(CH)         ; the digit
        JRST NEXT
SIGN:   MOVEI K,3               ; which operation it is
FIND:   CAMN CH,SIGNS(K)
        JRST FOUND
        SOJGE K,FIND
        JRST WRONG
FOUND:  PUSHJ P,APPLY
        MOVE OP,K
        JRST NUMBER
EQUALS: PUSHJ P,APPLY
        .IOT TTYO,[75]
        PUSHJ P,SHOW
        PUSHJ P,CRLF
        JRST NEW
WRONG:  .IOT TTYO,[77]          ; ?
        PUSHJ P,CRLF
        MOVE P,[777700,,STACK-1]
        JRST NEW
LEAVE:  .CALL BYE
        .BREAK 16,
; The operation that waits, on the value and the number
APPLY:  CAIN OP,3               ; a division by 0
        JUMPE N,WRONG
        XCT DO(OP)
        POPJ P,
DO:     ADD V,N
        SUB V,N
        IMUL V,N
        IDIV V,N
SIGNS:  WORD 53                 ; + - * /
        WORD 55
        WORD 52
        WORD 57
; Shows the value
SHOW:   JUMPGE V,DIGITS
        .IOT TTYO,[55]          ; -
        MOVN V,V
DIGITS: MOVEI K,0
DIVIDE: MOVE R,V
        ANDI R,7
        PUSH P,R
        LSH V,0-3
        ADDI K,1
        JUMPN V,DIVIDE
EACH:   POP P,CH
        ADDI CH,60
        .IOT TTYO,CH
        SOJG K,EACH
        POPJ P,
CRLF:   .IOT TTYO,[15]
        .IOT TTYO,[12]
        POPJ P,
; The blocks of the calls
OPENI:  WORD 400000,,0
        SIXBIT OPEN
        WORD 1000,,TTYI
        WORD 400000,,TTY
OPENO:  WORD 400000,,0
        SIXBIT OPEN
        WORD 5000,,1            ; for output
        WORD 1000,,TTYO
        WORD 400000,,TTY
BYE:    WORD 400000,,0
        SIXBIT LOGOUT
        WORD 405000,,0
TTY:    SIXBIT TTY
STACK:  LOC .+100
        GO START
