.orig x3000
ADD R0, R0
.end
