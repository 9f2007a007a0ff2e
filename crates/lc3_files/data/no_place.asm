.orig 0
.blkw 40000
.end
