; The source of the writer in close.its: it replaces the file A B in directory D by a draft of one word, again and again.
        JOB U W -
CH = 1
        LOC 100
START:  .CALL NEW               ; a draft
        .BREAK 16,
        .IOT CH,DATA            ; its word
AGAIN:  .CALL SHUT              ; it becomes the file
        JRST AGAIN              ; if that fails, because somebody reads the file
        JRST START
        LOC 120
NEW:    WORD 400000,,0
        SIXBIT OPEN
        WORD 5000,,1            ; for output
        WORD 1000,,CH
        WORD 0,,DSK
        WORD 0,,NAME1
        WORD 0,,NAME2
        WORD 400000,,DIR
        LOC 140
SHUT:   WORD 400000,,0
        SIXBIT CLOSE
        WORD 1000,,CH
        WORD 403000,,ERROR      ; gets its error number
        LOC 150
DSK:    SIXBIT DSK
NAME1:  SIXBIT A
NAME2:  SIXBIT B
DIR:    SIXBIT D
        LOC 210
DATA:   WORD 123
        LOC 220
ERROR:  WORD 0
        GO START
