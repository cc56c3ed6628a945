# A producer, a filter and a consumer pass the input along through two pipes; the filter changes the case of each letter.
    .segment 0 rx
    .entry start
start:
    lui x5, 1
    cincoffset c8, c2, x5
    addi x17, x0, 6
    ecall
    ecall
    addi x17, x0, 2
    ecall
    beq x10, x0, producer
    addi x17, x0, 2
    ecall
    beq x10, x0, filter
    addi x17, x0, 9
    addi x10, x0, 2
    ecall
    addi x10, x0, 3
    ecall
    addi x10, x0, 5
    ecall
    addi x18, x0, 4
    addi x19, x0, 1
    addi x20, x0, 0
    cjal c1, pump
    addi x17, x0, 3
    ecall
    addi x17, x0, 3
    ecall
    cjal c0, finish
producer:
    addi x17, x0, 9
    addi x10, x0, 2
    ecall
    addi x10, x0, 4
    ecall
    addi x10, x0, 5
    ecall
    addi x18, x0, 0
    addi x19, x0, 3
    addi x20, x0, 0
    cjal c1, pump
    cjal c0, finish
filter:
    addi x17, x0, 9
    addi x10, x0, 3
    ecall
    addi x10, x0, 4
    ecall
    addi x18, x0, 2
    addi x19, x0, 5
    addi x20, x0, 32
    cjal c1, pump
finish:
    addi x10, x0, 0
    addi x17, x0, 1
    ecall
pump:
    addi x10, x18, 0
    cmove c11, c8
    addi x12, x0, 512
    addi x17, x0, 7
    ecall
    beq x10, x0, back
    addi x21, x10, 0
    beq x20, x0, send
    addi x22, x21, 0
    cmove c9, c8
each:
    lbu x6, 0(c9)
    xor x6, x6, x20
    sb x6, 0(c9)
    cincoffsetimm c9, c9, 1
    addi x22, x22, -1
    bne x22, x0, each
send:
    addi x10, x19, 0
    cmove c11, c8
    addi x12, x21, 0
    addi x17, x0, 8
    ecall
    cjal c0, pump
back:
    cjalr c0, c1, 0
    .segment 0x1000 rw
    .bss 512
