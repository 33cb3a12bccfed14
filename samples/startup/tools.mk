# The tools and rules that the samples share: Debian's binutils-m68k-linux-gnu, gcc-m68k-linux-gnu,
# binutils-powerpc-linux-gnu and gcc-powerpc-linux-gnu. A sample's Makefile includes this file.
STARTUP := $(dir $(lastword $(MAKEFILE_LIST)))

AS68K = m68k-linux-gnu-as -m68000
LD68K = m68k-linux-gnu-ld
CC68K = m68k-linux-gnu-gcc -m68000 $(CFLAGS)
ASPPC = powerpc-linux-gnu-as -m601
LDPPC = powerpc-linux-gnu-ld
CCPPC = powerpc-linux-gnu-gcc -mcpu=601 -msoft-float -msdata=none $(CFLAGS)

# Code for an address that is fixed, without a library and without tables for debuggers.
CFLAGS = -O2 -Wall -ffreestanding -fno-builtin -fno-pic -fno-pie -fno-stack-protector \
	-fno-asynchronous-unwind-tables -fno-tree-loop-distribute-patterns -I$(STARTUP)

# Bytes alone, without a header, for the address $(AT).
AT = 0x10000
BARE = --oformat binary -e $(AT) -Ttext=$(AT)

# A C program of one set is linked by the script of the set, start.o first. Of NAME.elf, which nm and objdump
# can read, NAME.bin has the bytes alone.
LINK68K = $(LD68K) -z noexecstack --no-warn-rwx-segments -T $(STARTUP)68k/flat.ld
LINKPPC = $(LDPPC) -z noexecstack --no-warn-rwx-segments -T $(STARTUP)ppc/flat.ld
BYTES68K = m68k-linux-gnu-objcopy -O binary
BYTESPPC = powerpc-linux-gnu-objcopy -O binary

start-68k.o: $(STARTUP)68k/start.s
	$(AS68K) -o $@ $<

arithmetic-68k.o: $(STARTUP)68k/arithmetic.s
	$(AS68K) -o $@ $<

start-ppc.o: $(STARTUP)ppc/start.s
	$(ASPPC) -o $@ $<

memory-68k.o: $(STARTUP)memory.c
	$(CC68K) -c -o $@ $<

memory-ppc.o: $(STARTUP)memory.c
	$(CCPPC) -c -o $@ $<

clean:
	rm -f *.o *.part *.elf

.PHONY: clean
.DELETE_ON_ERROR:

# The first rule of the Makefile that includes this file is its goal.
.DEFAULT_GOAL :=
