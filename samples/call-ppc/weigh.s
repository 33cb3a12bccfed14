# The PowerPC routine: its parameters are words 0, 1 and 2, and so in r3, r4 and r5. Each was cut to its
# size, so r3 is $07 and r4 is $BEEF, whatever stood above them in the caller's longs.
        .text
weigh:  mullw   3,3,4                   # 7 times 48879
        add     3,3,5                   # and 74565
        blr                             # LR is the return gate; the result is in r3
