| A resource fork with three CODE resources: 0 with the sizes of the A5 world and the jump table, 1 with the
| main segment, 2 with two routines that segment 1 calls through the jump table.
        .text
fork:   .long   data-fork,map-fork,dataend-data,mapend-map

data:
at0:    .long   code0end-code0
code0:  .long   0x20+tableend-table     | above A5: 32 bytes for the system, and the jump table
        .long   16                      | below A5: the program's own variables
        .long   tableend-table
        .long   0x20                    | the jump table is at A5 + 32
table:  .word   main-segment1,0x3F3C,1,0xA9F0           | entry 0: where the program starts
        .word   first-segment2,0x3F3C,2,0xA9F0          | entry 1
        .word   second-segment2,0x3F3C,2,0xA9F0         | entry 2
tableend:
code0end:

at1:    .long   code1end-code1
code1:  .word   0,1                     | the segment's header: its first entry, how many it has
segment1:
main:   move.w  #10,-2(%a5)             | a variable of the A5 world
        jsr     0x20+8+2(%a5)           | entry 1: its words are now a jmp, two bytes behind its begin
        jsr     0x20+16+2(%a5)          | entry 2
        pea     0x20+8+2(%a5)
        .word   0xA9F1                  | UnloadSeg takes the address; the segment stays loaded
        jsr     0x20+16+2(%a5)
        moveq   #0,%d0
        move.w  -2(%a5),%d0
        .word   0xAA85                  | ExitWith
        .balign 2
code1end:

at2:    .long   code2end-code2
code2:  .word   8,2
segment2:
first:  lea     one(%pc),%a0
        moveq   #oneend-one,%d0
        bra.s   put
second: lea     two(%pc),%a0
        moveq   #twoend-two,%d0
put:    .word   0xAA82                  | PutBlock
        addq.w  #1,-2(%a5)
        rts
one:    .ascii  "first routine of segment 2\n"
oneend:
two:    .ascii  "second routine of segment 2\n"
twoend:
        .balign 2
code2end:
dataend:

map:    .space  16                      | for a copy of the header
        .space  6                       | for the system
        .word   0                       | attributes
        .word   types-map,names-map
types:  .word   0                       | one type
        .ascii  "CODE"
        .word   2,ids-types             | three of it
ids:    .word   0,-1                    | id, no name
        .long   at0-data,0              | attributes in the first byte, and the place in the data
        .word   1,-1
        .long   at1-data,0
        .word   2,-1
        .long   at2-data,0
names:
mapend:
