# Derives a capability to 16 bytes of its data, stores in them, and then stores one byte behind them, by which it dies.
    .segment 0 rx
    .entry start
start:
    lui x5, 1                    # the page of the data, at 4096
    cincoffset c8, c2, x5
    csetboundsimm c8, c8, 16     # 16 bytes, and never more again
    sd x5, 8(c8)                 # the last eight of them
    sb x5, 16(c8)                # the byte behind them
    addi x10, x0, 0
    addi x17, x0, 1              # exit
    ecall
    .segment 0x1000 rw
    .bss 4096
