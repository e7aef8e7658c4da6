; The source of the image in alarm.its: a job that asks for an alarm every 30 thirtieths of a second (0.8 of one), and counts the alarms.
        JOB U J 0
P = 17
ALR = 400                       ; the bit of alarms
        LOC P
        WORD 777700,,500
        LOC 42
        WORD 777772,,TSINT
        LOC 100
TSINT:  WORD 0,,P
        WORD 0,,ALR
        WORD 0
        WORD 0,,ALR
        WORD 0
        WORD 0,,HANDLE
        LOC 200
START:  .CALL SETM              ; let alarms interrupt
        .BREAK 16,
        .CALL REALT             ; one every 30 thirtieths
        .BREAK 16,
        .CALL SLP
        .BREAK 16,
        .CALL HANG
        .BREAK 16,
        LOC 220
SETM:   WORD 400000,,0
        SIXBIT USRVAR
        WORD 1000,,777777
        WORD 0,,MASK
        WORD 401000,,ALR
        LOC 230
REALT:  WORD 400000,,0
        SIXBIT REALT
        WORD 401000,,30         ; thirtieths of a second
        LOC 240
MASK:   SIXBIT MASK
        LOC 250
SLP:    WORD 400000,,0
        SIXBIT SLEEP
        WORD 400000,,TIME
        LOC 300
HANDLE: AOS COUNT
        .CALL DIS
        LOC 320
DIS:    WORD 400000,,0
        SIXBIT DISMIS
        WORD 400000,,P
        LOC 330
HANG:   WORD 400000,,0
        SIXBIT HANG
        WORD 405000,,0
        LOC 340
TIME:   WORD 50
        LOC 350
COUNT:  WORD 0
        GO START
