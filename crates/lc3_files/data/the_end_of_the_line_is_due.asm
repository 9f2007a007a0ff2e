.orig x3000
RET R7
.end
