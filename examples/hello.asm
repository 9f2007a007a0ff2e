.orig x3000
START LEA R0, MSG
PUTS
HALT
MSG .stringz "Hi"
.end
