.orig x3000
, HALT
.end
