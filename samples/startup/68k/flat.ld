/* A flat image of 68K code: the start first, at $10000, and memory that begins as zero last. All of it is
   one section, so that the zeros are in the file and the heap begins behind them. */
OUTPUT_FORMAT(elf32-m68k)
OUTPUT_ARCH(m68k)
ENTRY(start)
SECTIONS
{
    .image 0x10000 :
    {
        *(.start)
        *(.text .text.*)
        *(.rodata .rodata.*)
        . = ALIGN(4);
        *(.data .data.*)
        *(.bss .bss.* COMMON)
        . = ALIGN(4);
    }
    /* Code of the other set, where a program has some. */
    .other : { *(.other) }
    /DISCARD/ : { *(.comment) *(.note*) *(.eh_frame) *(.gnu.attributes) }
}
