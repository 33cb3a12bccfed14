| A mistake to be found: 68K code hands three prices to PowerPC code, which adds them up, and one price is wrong.
        .text
start:  moveq   #3,%d7                  | orders of 3, 2 and 1 pieces
next:   move.l  %d7,%d0
        bsr     price
        move.l  %d0,-(%sp)
        jsr     total                   | a routine descriptor: the call crosses
        addq.l  #4,%sp
        subq.l  #1,%d7
        bne     next
        .word   0xAA85                  | ExitWith: the total is in D0

price:  cmpi.l  #2,%d0
        beq     pair
        mulu    #100,%d0
        rts
pair:   moveq   #-1,%d0                 | the mistake: nobody has put the price of a pair here
        rts

        .balign 16
total:  .word   0xAAFE                  | the descriptor
        .byte   7,0
        .long   0
        .byte   0,0
        .word   0
        .long   0x000000F1              | C convention; gives a long; one long
        .byte   0,1
        .word   0
        .long   vector
        .long   0,0

        .balign 16
vector: .long   code,0
        .balign 16
code:   .incbin "total.part"            | has to begin at $10060, for which it is linked
