.orig x3000
LDR R0, R1, x-21 ; far
.end
