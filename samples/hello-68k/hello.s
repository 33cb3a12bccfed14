| Writes a line and ends. PutBlock takes the address of the bytes in A0 and their number in D0.
        .text
start:  lea     line(%pc),%a0
        moveq   #lineend-line,%d0
        .word   0xAA82                  | PutBlock
        .word   0xA9F4                  | ExitToShell
line:   .ascii  "hello from 68K code\n"
lineend:
