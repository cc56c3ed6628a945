# Writes hi and a line feed, and exits.
    .segment 0 rx
    .entry start
start:
    addi x10, x0, 1
    cincoffsetimm c11, c2, msg
    addi x12, x0, 3
    addi x17, x0, 8
    ecall
    addi x10, x0, 0
    addi x17, x0, 1
    ecall
msg:
    .ascii "hi\n"
