.orig x3000
START LD R0, R1
.end
