| 68K code calls 68K code of another fragment, which has an A5 of its own. The record says CFM-68K, so its
| target is a vector: the code's address and the A5 that the code is to find.
        .text
start:  move.l  #5,-(%sp)               | the parameter, a long
        jsr     add
        addq.l  #4,%sp                  | the caller of a C routine removes it
        .word   0xAA85                  | ExitWith: the result is in d0

        .balign 16
add:    .word   0xAAFE                  | a descriptor begins with this trap
        .byte   7,0                     | version, flags
        .long   0
        .byte   0,0
        .word   0                       | index of the last record: there is one
        .long   0xF1                    | procInfo: C, a result of four bytes, a parameter of four bytes
        .byte   0,0x10                  | the target is a vector of CFM-68K code
        .word   0                       | routine flags
        .long   vector                  | the target
        .long   0,0                     | reserved, selector

        .balign 16
vector: .long   routine,world

routine:
        move.l  (%a5),%d0               | a variable of this fragment
        add.l   4(%sp),%d0
        rts

        .balign 16
world:  .long   74565
