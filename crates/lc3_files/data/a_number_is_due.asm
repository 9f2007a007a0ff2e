.orig x3000
TRAP
.end
