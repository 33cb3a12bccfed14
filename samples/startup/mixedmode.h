/* What a C program needs to reach the host and code of the other set. Both compilers read this file: long
   and addresses have four bytes in each set, int too. */
#ifndef MIXEDMODE_H
#define MIXEDMODE_H

/* The parts of a procInfo word, to be joined by |. */
enum {
    PASCAL_CALL = 0,
    C_CALL = 1,
    REGISTER_CALL = 2,
    D0_PASCAL_CALL = 8,
    D0_C_CALL = 9,
    D1_PASCAL_CALL = 12,
    STACK_PASCAL_CALL = 14
};
enum { NO_VALUE = 0, ONE_BYTE = 1, TWO_BYTES = 2, FOUR_BYTES = 3 };
#define RESULT(size) ((unsigned long)(size) << 4)
/* Parameter k, from 1 to 13, of a call by the C or the Pascal convention. */
#define PARAMETER(k, size) ((unsigned long)(size) << (4 + 2 * (k)))
/* The selector of a dispatched call, in D0, in D1 or on the stack, and its parameter k, from 1 to 12. */
#define SELECTOR(size) ((unsigned long)(size) << 6)
#define DISPATCHED_PARAMETER(k, size) ((unsigned long)(size) << (6 + 2 * (k)))
/* Parameter k, from 1 to 4, of a register call, in IN_D0 to IN_A3, and the place of its result. */
enum { IN_D0, IN_D1, IN_D2, IN_D3, IN_A0, IN_A1, IN_A2, IN_A3, IN_D4, IN_D5, IN_D6, IN_D7, IN_A4, IN_A5, IN_A6 };
enum { IN_CARRY = 16, IN_OVERFLOW, IN_ZERO, IN_NEGATIVE, IN_EXTEND };
#define REGISTER_PARAMETER(k, size, place) ((unsigned long)((size) | (place) << 2) << (6 + 5 * (k)))
#define RESULT_PLACE(place) ((unsigned long)(place) << 6)

enum { CODE_68K = 0, CODE_PPC = 1 };

/* A routine descriptor with one record. */
struct RoutineDescriptor {
    unsigned short trap;
    unsigned char version, flags;
    unsigned long reserved1;
    unsigned char reserved2, selectorInfo;
    unsigned short lastRecord;
    unsigned long procInfo;
    unsigned char reserved3, set;
    unsigned short routineFlags;
    const void *target;
    unsigned long reserved4, selector;
};
#define DESCRIPTOR(procInfo, set, target) \
    { 0xAAFE, 7, 0, 0, 0, 0, 0, procInfo, 0, set, 0, (const void *)(target), 0, 0 }

/* What a PowerPC routine is reached by: its code and its TOC. gcc's code for an address that is fixed uses
   no TOC, so 0 will do. */
struct TransitionVector {
    const void *code;
    unsigned long toc;
};

/* Output and input: GetByte gives -1 at the input's end. */
void PutByte(int byte);
long GetByte(void);
void PutBlock(const void *bytes, unsigned long count);

/* A device's answer is in the low half, the error in the high half: 0, -21, -36 or -108. */
long long AskDevice(unsigned long slot, unsigned long word);
long EjectDevice(unsigned long slot);

/* The heap: an address is 0 where there is no room. */
void *NewPtr(unsigned long size);
void *NewPtrClear(unsigned long size);
long DisposePtr(void *block);
long BlockMove(const void *from, void *to, unsigned long count);

void *NewRoutineDescriptor(const void *routine, unsigned long procInfo, unsigned long set);
void *NewFatRoutineDescriptor(const void *m68k, const void *ppc, unsigned long procInfo);
long DisposeRoutineDescriptor(void *descriptor);

void ExitWith(long code) __attribute__((noreturn));

#ifdef __powerpc__
/* Calls a routine descriptor, or 68K code. 68K code itself just calls the descriptor's address. Parameters
   that come behind procInfo are at most six longs here: where the others are, gcc and the host differ. */
long CallUniversalProc(const void *routine, unsigned long procInfo, ...);
#endif

#endif
