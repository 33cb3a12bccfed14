| The PowerPC part, linked for $10800, within the 68K image.
        .section .other,"ax"
        .globl  sort_vector
sort_vector:
        .incbin "ppc.part"
