# A child walks a list of capabilities in its copy of the memory, and writes the letter of each element.
    .segment 0 rx
    .entry start
start:
    lui x5, 1
    cincoffset c8, c2, x5
    addi x17, x0, 2
    ecall
    bne x10, x0, parent
loop:
    cincoffsetimm c11, c8, 16
    addi x10, x0, 1
    addi x12, x0, 1
    addi x17, x0, 8
    ecall
    clc c8, 0(c8)
    cgettag x6, c8
    bne x6, x0, loop
    cjal c0, end
parent:
    addi x17, x0, 3
    ecall
end:
    addi x10, x0, 0
    addi x17, x0, 1
    ecall
    .segment 0x1000 rw
    .cap b, 32, 0, 0x3c
    .byte 120
    .align 16
b:
    .cap c, 32, 0, 0x3c
    .byte 121
    .align 16
c:
    .quad 0, 0
    .byte 122
