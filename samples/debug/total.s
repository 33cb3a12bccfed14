# The PowerPC routine: it adds what it gets to a long in memory, and gives the sum.
        .text
total:  lis     4,sum@h
        ori     4,4,sum@l
        lwz     5,0(4)
        add     3,5,3
        stw     3,0(4)
        blr
sum:    .long   0
