# A child sends a capability through a pipe. Its bytes arrive and its tag does not; the parent writes them with its own tag.
    .segment 0 rx
    .entry start
start:
    lui x5, 1
    cincoffset c8, c2, x5
    addi x17, x0, 6
    ecall
    addi x18, x10, 0
    addi x19, x11, 0
    addi x17, x0, 2
    ecall
    bne x10, x0, parent
    addi x10, x19, 0
    cmove c11, c8
    addi x12, x0, 16
    addi x17, x0, 8
    ecall
    cjal c0, end
parent:
    addi x10, x18, 0
    cincoffsetimm c11, c8, 32
    addi x12, x0, 16
    addi x17, x0, 7
    ecall
    clc c7, 32(c8)
    cgettag x6, c7
    sb x6, 48(c8)
    addi x10, x0, 1
    addi x12, x0, 17
    addi x17, x0, 8
    ecall
end:
    addi x10, x0, 0
    addi x17, x0, 1
    ecall
    .segment 0x1000 rw
    .cap buf, 16, 0, 0x3c
buf:
    .space 48
