.orig x3000
; café
.end
