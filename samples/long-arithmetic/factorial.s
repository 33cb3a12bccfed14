| What the 68020 adds: products and dividends of 64 bits, an index that counts in longs, and longs at odd
| addresses. Writes 20! in decimal, and ends with the sum of the packed longs as its code.
        .text
start:  moveq   #1,%d5                  | the factor
        moveq   #0,%d6                  | the product so far, high and low half
        moveq   #1,%d7
next:   move.l  %d7,%d1
        mulu.l  %d5,%d0:%d1             | low half times factor, 64 bits
        mulu.l  %d5,%d6                 | high half times factor
        add.l   %d0,%d6
        move.l  %d1,%d7
        addq.l  #1,%d5
        cmp.l   #20,%d5
        bls.s   next

        lea     end(%pc),%a0
digit:  divul.l #10,%d0:%d6             | high half by 10: quotient in d6, remainder in d0
        divu.l  #10,%d0:%d7             | remainder and low half by 10
        add.b   #'0',%d0
        move.b  %d0,-(%a0)
        tst.l   %d7
        bne.s   digit
        tst.l   %d6
        bne.s   digit
        moveq   #end-text+1,%d0         | with the line feed
        .word   0xAA82                  | PutBlock of the bytes at a0

        lea     packed(%pc),%a0
        moveq   #0,%d0
        moveq   #3,%d1
sum:    add.l   (%a0,%d1.l*4),%d0       | long d1 of the list
        dbra    %d1,sum
        .word   0xAA85                  | ExitWith

text:   .space  19                      | 20! has 19 digits
end:    .byte   10
        .byte   0                       | makes the next address odd
packed: .long   1000000,200000,30000,4000
