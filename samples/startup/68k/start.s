| The start of a C program in 68K code, and the host calls as C functions. C passes each parameter in a
| long behind the return address; a result is in D0, an address in A0 as well.
        .section .start,"ax"
        .globl  start
start:  jsr     main
        .word   0xAA85                  | ExitWith: main's result is in D0

        .text
        .globl  PutByte, GetByte, PutBlock, AskDevice, EjectDevice, ExitWith
        .globl  NewPtr, NewPtrClear, DisposePtr, BlockMove
        .globl  NewRoutineDescriptor, NewFatRoutineDescriptor, DisposeRoutineDescriptor

PutByte:
        move.l  4(%sp),%d0
        .word   0xAA80
        rts
GetByte:
        .word   0xAA81
        rts
PutBlock:
        movea.l 4(%sp),%a0
        move.l  8(%sp),%d0
        .word   0xAA82
        rts
AskDevice:                              | D0 and D1 are the halves of a long long
        move.l  4(%sp),%d0
        move.l  8(%sp),%d1
        .word   0xAA83
        rts
EjectDevice:
        move.l  4(%sp),%d0
        .word   0xAA84
        rts
ExitWith:
        move.l  4(%sp),%d0
        .word   0xAA85
NewPtr: move.l  4(%sp),%d0
        .word   0xA11E
        move.l  %a0,%d0
        rts
NewPtrClear:
        move.l  4(%sp),%d0
        .word   0xA31E
        move.l  %a0,%d0
        rts
DisposePtr:
        movea.l 4(%sp),%a0
        .word   0xA01F
        rts
BlockMove:
        movea.l 4(%sp),%a0
        movea.l 8(%sp),%a1
        move.l  12(%sp),%d0
        .word   0xA02E
        rts
NewRoutineDescriptor:
        movea.l 4(%sp),%a0
        move.l  8(%sp),%d0
        move.l  12(%sp),%d1
        .word   0xAA86
        move.l  %a0,%d0
        rts
NewFatRoutineDescriptor:
        movea.l 4(%sp),%a0
        movea.l 8(%sp),%a1
        move.l  12(%sp),%d0
        .word   0xAA87
        move.l  %a0,%d0
        rts
DisposeRoutineDescriptor:
        movea.l 4(%sp),%a0
        .word   0xAA88
        rts
