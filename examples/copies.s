# Forks. Parent and child each read a capability as a number, store it in their own copy, and write its bytes.
    .segment 0 rx
    .entry start
start:
    lui x5, 1
    cincoffset c8, c2, x5
    addi x17, x0, 2
    ecall
    addi x9, x10, 0
    ld x6, 0(c8)
    sd x6, 32(c8)
    cincoffsetimm c11, c8, 32
    addi x10, x0, 1
    addi x12, x0, 8
    addi x17, x0, 8
    ecall
    beq x9, x0, end
    addi x17, x0, 3
    ecall
end:
    addi x10, x0, 0
    addi x17, x0, 1
    ecall
    .segment 0x1000 rw
    .cap buf, 16, 0, 0x3c
buf:
    .space 32
