# The start of a C program in PowerPC code, and the host calls as C functions: a branch to each one's host
# code address. Parameters are in r3 and up, a result is in r3; the host call goes back to its caller.
        .section .start,"ax"
        .globl  start
start:  bl      main
        ba      0x1838                  # ExitWith: main's result is in r3

        .text
        .globl  PutByte, GetByte, PutBlock, AskDevice, EjectDevice, ExitWith
        .globl  NewPtr, NewPtrClear, DisposePtr, BlockMove, CallUniversalProc
        .globl  NewRoutineDescriptor, NewFatRoutineDescriptor, DisposeRoutineDescriptor

NewRoutineDescriptor:           ba 0x1800
NewFatRoutineDescriptor:        ba 0x1804
DisposeRoutineDescriptor:       ba 0x1808
CallUniversalProc:              ba 0x180C
NewPtr:                         ba 0x1810
NewPtrClear:                    ba 0x1814
DisposePtr:                     ba 0x1818
BlockMove:                      ba 0x181C
PutByte:                        ba 0x1824
GetByte:                        ba 0x1828
PutBlock:                       ba 0x182C
AskDevice:                      ba 0x1830       # r3 and r4 are the halves of a long long
EjectDevice:                    ba 0x1834
ExitWith:                       ba 0x1838
