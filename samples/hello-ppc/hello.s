# Writes a line and ends. PutBlock takes the address of the bytes in r3 and their number in r4; its host
# code address is $182C, to which bla branches with the return address in LR.
        .text
start:  lis     3,line@h
        ori     3,3,line@l
        li      4,lineend-line
        bla     0x182C                  # PutBlock
        ba      0x1820                  # ExitToShell
line:   .ascii  "hello from PowerPC code\n"
lineend:
