.orig x3000
HI .string "hi"
.end
