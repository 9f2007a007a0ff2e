.orig x3000
ADD R0 R1, R2
.end
