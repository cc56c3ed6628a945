# Reads from a pipe that it could write to itself, and waits for ever.
    .segment 0 rwx
    .entry start
start:
    addi x17, x0, 6
    ecall
    cmove c11, c2
    addi x12, x0, 1
    addi x17, x0, 7
    ecall
