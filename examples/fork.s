# Forks. The child writes b, which it made of the 0 that fork answers; the parent writes its own letter and waits.
    .segment 0 rx
    .entry start
start:
    lui x5, 1
    cincoffset c8, c2, x5
    addi x17, x0, 2
    ecall
    addi x6, x10, 97
    sb x6, 0(c8)
    addi x9, x10, 0
    addi x10, x0, 1
    cmove c11, c8
    addi x12, x0, 1
    addi x17, x0, 8
    ecall
    beq x9, x0, end
    addi x17, x0, 3
    ecall
end:
    addi x10, x0, 0
    addi x17, x0, 1
    ecall
    .segment 0x1000 rw
    .byte 0
