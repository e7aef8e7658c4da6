; The source of the image in list.its: a job that counts down in a word.
        JOB U LIST -
        LOC 100
START:  MOVEI 1,3
NEXT:   MOVEM 1,COUNT
        SOJG 1,NEXT
        .BREAK 16,
COUNT = 200
        GO START
