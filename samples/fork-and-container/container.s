# A container whose main routine multiplies its parameter by the number of calls so far, which it keeps in
# its own data: r2, the TOC, comes from the transition vector.
        .text
file:   .ascii  "Joy!peffpwpc"
        .long   1                       # version
        .long   0,0,0,0                 # date, versions
        .short  3,2                     # sections; those that are loaded
        .long   0

        .long   -1,0                    # code: no name, no address of its own
        .long   codeend-code,codeend-code,codeend-code
        .long   code-file
        .byte   0,1,4,0                 # kind 0, alignment 2^4
        .long   -1,0                    # pattern data: 12 bytes, packed into fewer
        .long   12,12,dataend-data
        .long   data-file
        .byte   2,1,4,0                 # kind 2
        .long   -1,0                    # loader
        .long   0,0,loaderend-loader
        .long   loader-file
        .byte   4,1,4,0                 # kind 4

        .balign 16
code:
main:   lwz     4,0(2)
        addi    4,4,1
        stw     4,0(2)
        mullw   3,3,4
        blr
codeend:

data:   .byte   0x0C                    # 12 zeros: the count of calls, and the vector's two longs at 4
dataend:
        .balign 4

loader: .long   1,4                     # main: section 1, offset 4
        .long   -1,0,-1,0               # no init, no term
        .long   0,0                     # no libraries, no symbols
        .long   1                       # sections with relocations
        .long   words-loader,strings-loader
        .long   0,0,0                   # no exports

        .short  1,0                     # relocations of section 1
        .long   (wordsend-words)/2,0
words:  .short  0x8003                  # IncrPosition by 4
        .short  0x4600                  # TVector8: add the base of section 0, then that of section 1
wordsend:
strings:
loaderend:
