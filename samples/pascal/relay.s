# The PowerPC routine: the byte, the word and the long are in r3, r4 and r5, and r2 is the descriptor of the
# 68K routine that it passes them to. It adds 1 to what comes back.
        .text
relay:  mflr    0
        stw     0,8(1)                  # in the linkage area that the host made
        stwu    1,-64(1)
        mr      7,5
        mr      6,4
        mr      5,3
        mr      3,2                     # universal pointer
        li      4,0x0E70                # procInfo
        bla     0x180C                  # CallUniversalProc
        addi    3,3,1
        addi    1,1,64                  # r1 has to be what it was at the beginning
        lwz     0,8(1)
        mtlr    0
        blr
