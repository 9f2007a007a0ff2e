.external F
.orig x3000
A B LD R1, P
JSRR R1
BRnz A
LDR R1, R2, #-32
AND R0, R0, R1
TRAP x77
ARR .blkw 2
P .fill F
MSG .stringz "Hi"
E .end
.orig x5000
HALT
.end
