| The 68K routine: the word is in D0, whose upper half is 0 as in every register of a callee, and the long in
| A0. The stack has the return address alone, which is the return gate.
        .text
add:    move.l  %a0,%d1
        add.l   %d0,%d1                 | the result belongs in D1
        rts
