; The source of the reader in close.its: it reads two words of the file A B in directory D.
        JOB U R -
CH = 1
        LOC 100
START:  .CALL OLD
        .BREAK 16,
        .IOT CH,DATA
        .IOT CH,DATA+1
        .CALL SHUT
        .BREAK 16,
        .BREAK 16,
        LOC 120
OLD:    WORD 400000,,0
        SIXBIT OPEN
        WORD 1000,,CH
        WORD 0,,DSK
        WORD 0,,NAME1
        WORD 0,,NAME2
        WORD 400000,,DIR
        LOC 140
SHUT:   WORD 400000,,0
        SIXBIT CLOSE
        WORD 401000,,CH
        LOC 150
DSK:    SIXBIT DSK
NAME1:  SIXBIT A
NAME2:  SIXBIT B
DIR:    SIXBIT D
        LOC 300
DATA:   WORD 0
        WORD 0
        GO START
