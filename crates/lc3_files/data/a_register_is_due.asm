.orig x3000
ADD R0, 5, R1
.end
