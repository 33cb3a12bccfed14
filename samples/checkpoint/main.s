| 68K code counts down together with PowerPC code: `down` calls `half`, and that calls `down` one less deep, so
| that fourteen calls are open when the count ends. Each writes nothing but its digit, and gives the sum.
        .text
start:  move.l  #7,-(%sp)               | the parameter
        jsr     down
        addq.l  #4,%sp
        move.l  %d0,%d2
        moveq   #10,%d0                 | a line feed
        .word   0xAA80                  | PutByte
        move.l  %d2,%d0
        .word   0xAA85                  | ExitWith

half:   moveq   #'0',%d0
        add.l   4(%sp),%d0
        .word   0xAA80                  | PutByte
        move.l  4(%sp),%d1
        subq.l  #1,%d1
        beq.s   last
        move.l  %d1,-(%sp)
        jsr     down
        addq.l  #4,%sp
        add.l   4(%sp),%d0              | what is below gave, and this one
        rts
last:   moveq   #1,%d0
        rts

        .balign 16
down:   .word   0xAAFE,0x0700,0,0,0,0   | one record
        .long   0x000000F1              | C; gives four bytes; four bytes
        .word   0x0001,0                | PowerPC
        .long   vector,0,0
        .balign 16
back:   .word   0xAAFE,0x0700,0,0,0,0
        .long   0x000000F1
        .word   0x0000,0                | 68K
        .long   half,0,0
        .balign 16
vector: .long   code,back               | the TOC of this routine is the descriptor that it calls
        .balign 16
code:   .incbin "down.part"             | position independent
