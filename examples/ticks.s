# Loads a number, prints a line so many times, and then stores what is left to count, which its page doesn't allow.
    .segment 0 rx
    .entry start
start:
    ld x5, count(c2)             # how many lines
    cincoffsetimm c11, c2, line  # where the line lies
    addi x12, x0, 5              # its length
next:
    addi x10, x0, 1              # the console's output, since the answer is in x10
    addi x17, x0, 8              # write
    ecall
    addi x5, x5, -1
    bne x5, x0, next
    sd x5, count(c2)             # the page has no right W
    addi x10, x0, 0              # the status
    addi x17, x0, 1              # exit
    ecall
    .align 8
count:
    .quad 3
line:
    .ascii "tick\n"
