.orig x3000
ADD R0, R0, 16
.end
