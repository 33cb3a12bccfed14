| 68K code calls PowerPC code by the C convention with a byte, a word and a long. A routine descriptor is
| called as a 68K routine is; its first word, $AAFE, makes the call cross.
        .text
start:  move.l  #0x00012345,-(%sp)      | parameter 3: C pushes the last one first. A long: all four bytes
        move.l  #0xFFFFBEEF,-(%sp)      | parameter 2: a word, the last two bytes of its long
        move.l  #0xFFFFFF07,-(%sp)      | parameter 1: a byte, the last byte of its long
        jsr     weigh                   | pushes the return address; the pc stands on the descriptor
        lea     12(%sp),%sp             | the caller of a C routine removes the three longs
        .word   0xAA85                  | ExitWith: the result, a long, is in D0

        .balign 16
weigh:  .word   0xAAFE                  | a descriptor begins with this trap
        .byte   7,0                     | version, flags
        .long   0
        .byte   0,0
        .word   0                       | index of the last record: there is one
        .long   0x00000E71              | procInfo, in binary 11 10 01 11 0001 from the right:
                                        |   0001  C convention       11  result: four bytes
                                        |   01    parameter 1: one   10  parameter 2: two
                                        |   11    parameter 3: four  00  no more parameters
        .byte   0,1                     | the target is PowerPC code
        .word   0                       | routine flags
        .long   vector                  | the target: a transition vector
        .long   0,0                     | reserved, selector

        .balign 16
vector: .long   code,0                  | the code's address, and what the callee finds in r2
        .balign 16
code:   .incbin "weigh.part"            | has to begin at $10050, for which it is linked
