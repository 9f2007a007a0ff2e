.orig x3000
.stringz HI
.end
