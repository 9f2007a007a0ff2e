.orig x3000
HALT
.end
LAST ; the end