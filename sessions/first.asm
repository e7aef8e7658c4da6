; The source of the image in first.its: a job that puts 5 into a word.
; Assemble it with ./its asm < sessions/first.asm; what that writes is a session that loads and starts the job.
; All numbers are octal. A comment begins with a semicolon.
        JOB U J -               ; its names, and no console
        LOC 100
START:  MOVEI 1,5
        MOVEM 1,X               ; X is defined below
X = 200
        GO START
