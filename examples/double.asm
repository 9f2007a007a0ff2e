; R0 twice.
        .orig x4000
DOUBLE  ADD R0, R0, R0
        RET
        .end
