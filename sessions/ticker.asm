; The source of the image in ticker.its: a clock that prints by alarm while one types. The line begins with the time since the start, and
; after it comes what is typed. Each second an alarm takes the job out of its call, and the handler writes the line anew with the new
; time. For a new line the job sets a bit among its own pending bits, so that the same handler writes the time.
        JOB U TICKER 0
CH = 1                          ; a byte in hand
N = 2                           ; how many bytes the line has
T = 3                           ; of the handler: a quotient and its remainder
R = 4
P = 17                          ; the stack of interrupts
ALR = 400                       ; the bit of alarms
DRAW = 1000                     ; the job's own bit
TTYI = 1
TTYO = 2
MOST = 60                       ; so many bytes a line may have
        LOC P
        WORD 777700,,477        ; 100 words from 500 on
        LOC 42
        WORD 777765,,TSINT      ; the table of interrupts has 13 words
        LOC 60
TSINT:  WORD 0,,P
        WORD 0,,ALR             ; the bits that are taken
        WORD 0
        WORD 0,,ALR+DRAW        ; those that are deferred while the handler runs
        WORD 0
        WORD 0,,SECOND
        WORD 0,,DRAW            ; the same for the other handler
        WORD 0
        WORD 0,,ALR+DRAW
        WORD 0
        WORD 0,,HANDLE
        LOC 100
START:  .CALL OPENI             ; a call that succeeds skips the instruction after it
        .BREAK 16,
        .CALL OPENO
        .BREAK 16,
        .CALL SETM              ; let both bits interrupt
        .BREAK 16,
        .CALL REALT             ; one each second
        .BREAK 16,
NEW:    MOVEI N,0
        .CALL BEGIN             ; the time
        .BREAK 16,
NEXT:   .IOT TTYI,CH
        CAIN CH,15              ; a carriage return
        JRST LINE
        CAIL N,MOST
        JRST NEXT
        MOVEM CH,TEXT(N)
        .IOT TTYO,TEXT(N)
OUT:    AOJA N,NEXT             ; the byte is out, and counted here
LINE:   .IOT TTYO,[15]
        .IOT TTYO,[12]
        JRST NEW
SECOND: AOS SECS
; A job is never interrupted inside of a call, but it may be between .IOT and AOJA: then the byte at N is out and not
; counted yet, and belongs to the line.
HANDLE: MOVEM CH,SAVE
        MOVEM T,SAVE+1
        MOVEM R,SAVE+2
        HRRZ CH,(P)             ; the PC that was interrupted
        MOVEM N,COUNT
        CAIN CH,OUT
        AOS COUNT
        MOVE CH,[444400,,TEXT]
        MOVEM CH,POINT
        .IOT TTYO,[15]          ; back to the margin
        MOVE T,SECS
        IDIVI T,74              ; minutes and seconds
        ADDI T,60
        .IOT TTYO,T
        .IOT TTYO,[72]          ; :
        MOVE T,R
        IDIVI T,12              ; two digits
        ADDI T,60
        .IOT TTYO,T
        ADDI R,60
        .IOT TTYO,R
        .IOT TTYO,[40]
        .CALL PUT               ; the line
        .BREAK 16,
        MOVE CH,SAVE
        MOVE T,SAVE+1
        MOVE R,SAVE+2
        .CALL DIS               ; back to where the alarm came
; The blocks of the calls
OPENI:  WORD 400000,,0
        SIXBIT OPEN
        WORD 1000,,TTYI
        WORD 400000,,TTY
OPENO:  WORD 400000,,0
        SIXBIT OPEN
        WORD 5000,,1            ; for output
        WORD 1000,,TTYO
        WORD 400000,,TTY
SETM:   WORD 400000,,0
        SIXBIT USRVAR
        WORD 1000,,777777       ; of the job itself
        WORD 0,,MASK
        WORD 401000,,ALR+DRAW
BEGIN:  WORD 400000,,0
        SIXBIT USRVAR
        WORD 1000,,777777
        WORD 0,,PIRQC
        WORD 401000,,DRAW
REALT:  WORD 400000,,0
        SIXBIT REALT
        WORD 401000,,36         ; thirtieths of a second
DIS:    WORD 400000,,0
        SIXBIT DISMIS
        WORD 400000,,P
PUT:    WORD 400000,,0
        SIXBIT SIOT
        WORD 1000,,TTYO
        WORD 0,,POINT
        WORD 400000,,COUNT
TTY:    SIXBIT TTY
MASK:   SIXBIT MASK
PIRQC:  SIXBIT PIRQC
SECS:   WORD 0
POINT:  WORD 0
COUNT:  WORD 0
SAVE = 400                      ; what the handler keeps
TEXT = 600                      ; the line, a byte in each word
        GO START
