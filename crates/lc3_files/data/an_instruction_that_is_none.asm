.orig x3000
LOOP MOV R0, R1
.end
