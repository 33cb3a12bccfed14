/* A PowerPC part of an image whose main part is 68K code: the vector first, no start. */
OUTPUT_FORMAT(elf32-powerpc)
OUTPUT_ARCH(powerpc)
SECTIONS
{
    .part 0x10800 :
    {
        *(.vector)
        *(.text .text.*)
        *(.rodata .rodata.*)
        . = ALIGN(4);
        *(.data .data.*)
        *(.bss .bss.* COMMON)
        . = ALIGN(4);
    }
    /DISCARD/ : { *(.start) *(.comment) *(.note*) *(.eh_frame) *(.gnu.attributes) }
}
