| A resource fork whose main routine calls PowerPC code of a container that is loaded with it. The long at
| $1024 is the address of the container's main vector; the library makes a routine descriptor for it.
        .text
fork:   .long   data-fork,map-fork,dataend-data,mapend-map

data:
at0:    .long   code0end-code0
code0:  .long   0x20+tableend-table     | above A5: 32 bytes for the system, and the jump table
        .long   4                       | below A5: one variable
        .long   tableend-table
        .long   0x20                    | the jump table is at A5 + 32
table:  .word   main-segment1,0x3F3C,1,0xA9F0
tableend:
code0end:

at1:    .long   code1end-code1
code1:  .word   0,1
segment1:
main:   movea.l 0x1024.w,%a0            | the container's main vector
        move.l  #0x000000F1,%d0         | C; gives a long; a long
        moveq   #1,%d1                  | PowerPC
        .word   0xAA86                  | NewRoutineDescriptor: its address in A0, in the heap
        movea.l %a0,%a3                 | a crossing brings all registers back but for the result's
        pea     100.w
        jsr     (%a3)
        addq.l  #4,%sp
        move.l  %d0,-4(%a5)
        pea     100.w
        jsr     (%a3)
        addq.l  #4,%sp
        add.l   %d0,-4(%a5)
        movea.l %a3,%a0
        .word   0xAA88                  | DisposeRoutineDescriptor: 0 in D0
        add.l   -4(%a5),%d0
        .word   0xAA85                  | ExitWith
        .balign 2
code1end:
dataend:

map:    .space  16                      | for a copy of the header
        .space  6                       | for the system
        .word   0                       | attributes
        .word   types-map,names-map
types:  .word   0                       | one type
        .ascii  "CODE"
        .word   1,ids-types             | two of it
ids:    .word   0,-1                    | id, no name
        .long   at0-data,0              | attributes in the first byte, and the place in the data
        .word   1,-1
        .long   at1-data,0
names:
mapend:
