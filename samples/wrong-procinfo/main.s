# A mistake of a port: the routine's descriptor says word and long, and its caller still says long and long.
# The host refuses the call and names both words.
        .text
start:  lis     3,add@h
        ori     3,3,add@l
        li      4,0x03F1                # C; gives a long; two longs
        li      5,17
        li      6,4
        bla     0x180C                  # CallUniversalProc
        ba      0x1838

        .balign 16
add:    .short  0xAAFE,0x0700,0,0,0,0
        .long   0x000003B1              # C; gives a long; a word and a long
        .short  0x0000,0                # 68K
        .long   routine,0,0
        .balign 16
routine:
        .short  0x4E71,0x4E75           # nop, rts
