# Asks for a write of 3 bytes by a capability of 2, which is refused, and exits with the answer.
    .segment 0 rx
    .entry start
start:
    addi x10, x0, 1              # the console's output
    cincoffsetimm c11, c2, msg   # where the text lies
    csetboundsimm c11, c11, 2    # two bytes of it
    addi x12, x0, 3              # one more than that
    addi x17, x0, 8              # write
    ecall
    addi x17, x0, 1              # exit
    ecall
msg:
    .ascii "hi\n"
