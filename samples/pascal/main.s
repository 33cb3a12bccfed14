| 68K code calls PowerPC code by the Pascal convention with a byte, a word and a long; that code calls a
| Pascal routine in 68K code with the same three. README.md draws both stacks.
        .text
start:  subq.l  #4,%sp                  | room for the result comes first
        move.b  #0xA5,-(%sp)            | parameter 1: takes two bytes, A7 goes down by 2
        move.w  #0xBEEF,-(%sp)          | parameter 2
        move.l  #0x12345678,-(%sp)      | parameter 3: the last has the lowest address
        jsr     relay                   | S: the long at A7 is the return address
        move.l  (%sp)+,%d0              | the call removed the parameters; the result is on top
        .word   0xAA85                  | ExitWith

digest: movea.l (%sp)+,%a0              | a Pascal routine removes its return address, here the gate,
        move.l  (%sp)+,%d0              | parameter 3,
        move.w  (%sp)+,%d1              | parameter 2,
        moveq   #0,%d2
        move.b  (%sp)+,%d2              | and parameter 1, with which A7 goes up by 2,
        mulu.w  %d1,%d2
        add.l   %d2,%d0
        move.l  %d0,(%sp)               | and leaves the result in the room above them
        jmp     (%a0)

        .balign 16
relay:  .word   0xAAFE,0x0700,0,0,0,0   | one record
        .long   0x00000E70              | Pascal; gives four bytes; one, two and four bytes
        .word   0x0001,0                | PowerPC
        .long   vector,0,0
        .balign 16
back:   .word   0xAAFE,0x0700,0,0,0,0
        .long   0x00000E70
        .word   0x0000,0                | 68K
        .long   digest,0,0
        .balign 16
vector: .long   code,back               | the TOC of this routine is the descriptor that it calls
        .balign 16
code:   .incbin "relay.part"            | position independent
