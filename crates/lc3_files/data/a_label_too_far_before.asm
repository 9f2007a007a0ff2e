.orig x3000
BACK ADD R0, R0, 1
.blkw 1100
JSR back
HALT
.end
