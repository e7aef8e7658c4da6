; The source of the image in symbols.its: a pure program that counts in a word of its second page.
        JOB U COUNT -
        LOC 100
START:  MOVEI 1,3
LOOP:   AOS COUNT
        SOJG 1,LOOP
DONE:   .BREAK 16,
        LOC 2000
COUNT:  WORD 0
        GO START
