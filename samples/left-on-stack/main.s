# A mistake of a port: the 68K routine is called by the Pascal convention, but returns as a C routine does and
# leaves its two parameters, six bytes, on the stack. The host tells where A7 is and where it should be.
        .text
start:  lis     3,add@h
        ori     3,3,add@l
        li      4,0x03B0                # Pascal; gives a long; a word and a long
        li      5,17
        li      6,4
        bla     0x180C                  # CallUniversalProc
        ba      0x1838

        .balign 16
add:    .short  0x202F,0x0004           # move.l 4(sp),d0: the long
        .short  0x4E75                  # rts
