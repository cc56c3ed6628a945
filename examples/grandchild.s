# Forks twice. The grandchild writes a capability of its memory, which was moved twice.
    .segment 0 rx
    .entry start
start:
    lui x5, 1
    cincoffset c8, c2, x5
    addi x17, x0, 2
    ecall
    bne x10, x0, end
    addi x17, x0, 2
    ecall
    bne x10, x0, end
    addi x10, x0, 1
    cmove c11, c8
    addi x12, x0, 8
    addi x17, x0, 8
    ecall
end:
    addi x10, x0, 0
    addi x17, x0, 1
    ecall
    .segment 0x1000 rw
    .cap buf, 16, 0, 0x3c
buf:
    .space 32
