# A child loads through an address of its parent that it kept as a number, and dies, since a number is no capability.
    .segment 0 rx
    .entry start
start:
    lui x5, 1
    cincoffset c8, c2, x5
    cgetaddr x6, c8
    addi x17, x0, 2
    ecall
    bne x10, x0, parent
    sd x6, 0(c8)
    cmove c11, c8
    addi x10, x0, 1
    addi x12, x0, 8
    addi x17, x0, 8
    ecall
    ld x7, 0(c6)
parent:
    addi x17, x0, 3
    ecall
    addi x10, x0, 0
    addi x17, x0, 1
    ecall
    .segment 0x1000 rw
    .quad 0
