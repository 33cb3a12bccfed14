| Products, quotients and remainders of longs, which the 68000 has no instructions for and which gcc calls
| by these names. A divisor of 0 is the fault vector 5.
        .text
        .globl  __mulsi3, __udivsi3, __umodsi3, __divsi3, __modsi3

__mulsi3:
        move.w  4(%sp),%d0              | high half of one times low half of the other, both ways
        mulu.w  10(%sp),%d0
        move.w  6(%sp),%d1
        mulu.w  8(%sp),%d1
        add.w   %d1,%d0
        swap    %d0
        clr.w   %d0
        move.w  6(%sp),%d1
        mulu.w  10(%sp),%d1
        add.l   %d1,%d0
        rts

| D0 divided by D1: quotient in D0, remainder in D1.
divide: movem.l %d2-%d4,-(%sp)
        tst.l   %d1
        bne.s   1f
        divu.w  #0,%d1
1:      move.l  %d1,%d2
        moveq   #0,%d1
        moveq   #31,%d3
2:      add.l   %d0,%d0                 | the next bit of the number goes into the remainder
        addx.l  %d1,%d1
        bcs.s   3f
        cmp.l   %d2,%d1
        bcs.s   4f
3:      sub.l   %d2,%d1
        addq.l  #1,%d0
4:      dbf     %d3,2b
        movem.l (%sp)+,%d2-%d4
        rts

__udivsi3:
        move.l  4(%sp),%d0
        move.l  8(%sp),%d1
        bra.s   divide
__umodsi3:
        move.l  4(%sp),%d0
        move.l  8(%sp),%d1
        bsr.s   divide
        move.l  %d1,%d0
        rts

| The same with signs: the remainder has the sign of the number.
signed: move.l  8(%sp),%d0
        bpl.s   1f
        neg.l   %d0
1:      move.l  12(%sp),%d1
        bpl.s   2f
        neg.l   %d1
2:      bra.s   divide
__divsi3:
        bsr.s   signed
        move.b  4(%sp),%d1
        move.l  %d2,-(%sp)
        move.b  12(%sp),%d2
        eor.b   %d2,%d1
        bpl.s   1f
        neg.l   %d0
1:      move.l  (%sp)+,%d2
        rts
__modsi3:
        bsr.s   signed
        move.l  %d1,%d0
        tst.b   4(%sp)
        bpl.s   1f
        neg.l   %d0
1:      rts
