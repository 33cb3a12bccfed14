# A PEF container with a code, a data and a loader section. Its main routine writes a line by the imported
# PutBlock and tests a weak import. Numbers of sections: code 0, data 1, loader 2.
        .text
file:   .ascii  "Joy!peffpwpc"
        .long   1                       # version
        .long   0,0,0,0                 # date, versions
        .short  3,2                     # sections; those that are loaded
        .long   0

        .long   -1,0                    # code: no name, no address of its own
        .long   codeend-code,codeend-code,codeend-code
        .long   code-file
        .byte   0,1,4,0                 # kind 0, alignment 2^4
        .long   -1,0                    # data
        .long   dataend-data,dataend-data,dataend-data
        .long   data-file
        .byte   1,1,4,0                 # kind 1
        .long   -1,0                    # loader
        .long   0,0,loaderend-loader
        .long   loader-file
        .byte   4,1,4,0                 # kind 4

        .balign 16
code:
main:   mflr    0
        stw     0,8(1)
        stwu    1,-64(1)
        lwz     3,message-data(2)       # the address of the text, relocated in the data section
        li      4,textend-text
        lwz     12,putblock-data(2)     # the imported function's transition vector
        bl      glue
        lwz     2,20(1)                 # the own TOC again
        lwz     12,speak-data(2)
        cmpwi   12,0                    # a weak import that there is not is 0
        li      3,1
        bne     done
        li      3,0
done:   addi    1,1,64
        lwz     0,8(1)
        mtlr    0
        cmpwi   3,0
        beqlr                           # LR is the exit gate: exit with code 0
        ba      0x1838                  # ExitWith

glue:   stw     2,20(1)                 # a call through a transition vector
        lwz     0,0(12)
        lwz     2,4(12)
        mtctr   0
        bctr
codeend:

        .balign 16
data:
vector: .long   main-code,0             # the main vector: code and TOC, as offsets in their sections
putblock:
        .long   0                       # import 0
speak:  .long   0                       # import 1
message:
        .long   text-data
text:   .ascii  "hello from a container\n"
textend:
        .balign 4
dataend:

        .balign 16
loader: .long   1,vector-data           # main: section 1 and the vector's offset
        .long   -1,0,-1,0               # no init, no term
        .long   2,2                     # libraries, symbols
        .long   1                       # sections with relocations
        .long   words-loader,strings-loader
        .long   0,0,0                   # no exports

        .long   host-strings,0,0,1,0,0  # HostLib: one symbol, from number 0 on
        .long   speech-strings,0,0,1,1,0x40000000       # SpeechLib: one symbol, from number 1 on

        .long   0x02000000+put-strings  # class 2, a transition vector
        .long   0x82000000+say-strings  # and weak

        .short  1,0                     # relocations of section 1
        .long   (wordsend-words)/2,0
words:  .short  0x4600                  # TVector8: at 0 add the base of section 0, at 4 that of section 1
        .short  0x4A01                  # ImportRun of 2: at 8 add import 0, at 12 import 1
        .short  0x4200                  # BySectD of 1: at 16 add the base of section 1
wordsend:
strings:
host:   .asciz  "HostLib"
speech: .asciz  "SpeechLib"
put:    .asciz  "PutBlock"
say:    .asciz  "SpeakString"
loaderend:
