; Task 1: the text HELLO, on the console.
        JOB U CALL 0
        LOC 100
START:  .BREAK 16,              ; put your program in the place of this line
        GO START
