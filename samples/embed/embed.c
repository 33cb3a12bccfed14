/* Runs three programs that lie in memory, and prints status, steps, output and trace of each: one that puts a letter, PowerPC code
 * that calls 68K code, and the same cut after 9 steps and run on from its image. */
#include <inttypes.h>
#include <stdio.h>
#include <stdlib.h>

#include "mixedrun.h"

/* 68K code: moveq #'H',d0; PutByte; ExitToShell. */
static const uint8_t hello[] = {0x70, 0x48, 0xAA, 0x80, 0xA9, 0xF4};

/* PowerPC code that hands the descriptor at $10030 to CallUniversalProc, with $00131072, $7FFF1234 and $0002DCBA, and exits
 * with the result; the descriptor; and at $10050 the 68K code, which adds a word and a long. */
static const uint8_t crossing[] = {
    0x3C, 0x60, 0x00, 0x01, 0x60, 0x63, 0x00, 0x30, 0x3C, 0x80, 0x00, 0x13, 0x60, 0x84, 0x10, 0x72,
    0x3C, 0xA0, 0x7F, 0xFF, 0x60, 0xA5, 0x12, 0x34, 0x3C, 0xC0, 0x00, 0x02, 0x60, 0xC6, 0xDC, 0xBA,
    0x48, 0x00, 0x18, 0x0F, 0x48, 0x00, 0x18, 0x3A, 0x60, 0x00, 0x00, 0x00, 0x60, 0x00, 0x00, 0x00,
    0xAA, 0xFE, 0x07, 0x00, 0x00, 0x00, 0x00, 0x00, 0x00, 0x00, 0x00, 0x00, 0x00, 0x13, 0x10, 0x72,
    0x00, 0x00, 0x00, 0x00, 0x00, 0x01, 0x00, 0x50, 0x00, 0x00, 0x00, 0x00, 0x00, 0x00, 0x00, 0x00,
    0x22, 0x08, 0xD2, 0x80, 0x4E, 0x75,
};

/* An image of 128 KiB of RAM has at most 36 bytes in front, 8 for each of 4096 heap blocks, 156 of registers, and 1025 for
 * each of 128 pages. */
enum { IMAGE_ROOM = 36 + 8 * 4096 + 156 + 1025 * 128 };

static uint8_t out[64], trace[256];
static mixedrun_told told;

/* Stands where a length is 0: no pointer may be NULL. */
static uint8_t nothing[1];

static void tell(const char *name, int status)
{
    printf("%s: status %d, %" PRIu32 " steps\n%.*s\n%.*s", name, status, told.steps, (int)told.out, (const char *)out,
           (int)told.trace, (const char *)trace);
}

static int run(uint32_t main_set, uint32_t steps, const uint8_t *file, size_t length, uint8_t *kept, size_t room)
{
    return mixedrun_run(MIXEDRUN_FLAT, main_set, 128, steps, file, length, nothing, 0, nothing, 0, out,
                        sizeof out, trace, sizeof trace, kept, room, &told);
}

static int run_on(uint32_t steps, const uint8_t *image, size_t length)
{
    return mixedrun_continue(steps, image, length, nothing, 0, out, sizeof out, trace, sizeof trace, nothing, 0,
                             &told);
}

int main(void)
{
    uint8_t *image = malloc(IMAGE_ROOM);
    if (!image)
        return 1;
    tell("hello", run(MIXEDRUN_USUAL, 1000, hello, sizeof hello, nothing, 0));
    tell("crossing", run(MIXEDRUN_PPC, 1000, crossing, sizeof crossing, nothing, 0));
    tell("cut", run(MIXEDRUN_PPC, 9, crossing, sizeof crossing, image, IMAGE_ROOM));
    tell("continued", run_on(1000, image, told.kept));
    free(image);
    return 0;
}
