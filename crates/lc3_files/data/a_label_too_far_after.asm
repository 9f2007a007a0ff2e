.orig x3000
LD R0, FAR
.blkw 300
FAR .fill 7
.end
