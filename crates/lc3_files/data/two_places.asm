.orig 5
HALT
HALT
.end
.orig 6
HALT
.end
