; The source of the writer in link.its: it sends a text through the link TEXT, one byte at a step, and closes its end.
        JOB U W -
LINK = 1                        ; the channel on the writing end of the link
        LOC 100
START:  .CALL OPENL             ; a call skips the instruction after it if it succeeds
        .BREAK 16,
        .CALL SEND
        .BREAK 16,
        .CALL SHUT
        .BREAK 16,
        .BREAK 16,
        LOC 140
; OPEN of the writing end: the control argument is 1.
OPENL:  WORD 400000,,0
        SIXBIT OPEN
        WORD 5000,,1
        WORD 1000,,LINK
        WORD 0,,LNK
        WORD 400000,,NAME
; SIOT: channel, pointer, count. The words of pointer and count are changed while bytes are sent.
SEND:   WORD 400000,,0
        SIXBIT SIOT
        WORD 1000,,LINK
        WORD 0,,POINT
        WORD 400000,,COUNT
SHUT:   WORD 400000,,0
        SIXBIT CLOSE
        WORD 401000,,LINK
LNK:    SIXBIT LNK              ; the device
NAME:   SIXBIT TEXT             ; the name of the link
        LOC 200
POINT:  WORD 440700,,TEXT       ; before the first byte of the text, in bytes of 7 bits
COUNT:  WORD 11                 ; 9 in decimal
TEXT:   WORD 406311,,420236     ; ALL O: the bytes 101 114 114 40 117
        WORD 431011,,152000     ; F IT: the bytes 106 40 111 124
        GO START
