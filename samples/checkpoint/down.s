# The PowerPC half of the count: it passes its number, which is in r3, to the 68K half, whose descriptor is r2.
        .text
down:   mflr    0
        stw     0,8(1)                  # in the linkage area that the host made
        stwu    1,-64(1)
        mr      5,3
        mr      3,2                     # universal pointer
        li      4,0x00F1                # procInfo
        bla     0x180C                  # CallUniversalProc
        addi    1,1,64                  # r1 has to be what it was at the beginning
        lwz     0,8(1)
        mtlr    0
        blr
