; Calls DOUBLE, which another file defines, and keeps what it gives.
        .external DOUBLE
        .orig x3000
START   LD R0, NUMBER
        LD R1, WHERE
        JSRR R1
        ST R0, RESULT
        HALT
NUMBER  .fill 21
WHERE   .fill DOUBLE
RESULT  .blkw 1
        .end
