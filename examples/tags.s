# A store of a number into a granule clears the tag of the capability there. Writes the tag before and after.
    .segment 0 rx
    .entry start
start:
    lui x5, 1
    cincoffset c8, c2, x5
    clc c7, 0(c8)
    cgettag x6, c7
    sb x6, 32(c8)
    sd x0, 8(c8)
    clc c7, 0(c8)
    cgettag x6, c7
    sb x6, 33(c8)
    cincoffsetimm c11, c8, 32
    addi x10, x0, 1
    addi x12, x0, 2
    addi x17, x0, 8
    ecall
    addi x10, x0, 0
    addi x17, x0, 1
    ecall
    .segment 0x1000 rw
    .cap buf, 16, 0, 0x3c
buf:
    .space 32
