# PowerPC code calls 68K code by the register convention with a word and a long. It does so by the library
# function CallUniversalProc, whose host code address is $180C.
        .text
start:  lis     3,add@h                 # r3, word 0: the universal pointer, here a routine descriptor
        ori     3,3,add@l
        lis     4,0x0013                # r4, word 1: the procInfo, which has to be the record's
        ori     4,4,0x1072
        lis     5,0x7FFF                # r5, word 2: parameter 1, a word; what is above it is cut off
        ori     5,5,0x1234
        lis     6,0x0002                # r6, word 3: parameter 2, a long
        ori     6,6,0xDCBA
        bla     0x180C                  # CallUniversalProc; LR is where this caller goes on
        ba      0x1838                  # ExitWith: the result is in r3

        .balign 16
add:    .short  0xAAFE                  # a descriptor begins with this trap
        .byte   7,0                     # version, flags
        .long   0
        .byte   0,0
        .short  0                       # index of the last record: there is one
        .long   0x00131072              # procInfo, 10011 00010 00001 11 0010 from the right:
                                        #   0010   register convention
                                        #   11     result: four bytes
                                        #   00001  the result's place is D1
                                        #   00010  parameter 1: size 10, two bytes; register 000, D0
                                        #   10011  parameter 2: size 11, four bytes; register 100, A0
        .byte   0,0                     # the target is 68K code
        .short  0                       # routine flags
        .long   routine                 # the target: the code's address
        .long   0,0                     # reserved, selector

        .balign 16
routine:
        .incbin "add.part"              # position independent
