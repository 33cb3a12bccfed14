/* PowerPC code: an insertion sort that knows of the comparison only a universal pointer. */
#include "mixedmode.h"

#define COMPARE_INFO \
    (C_CALL | RESULT(FOUR_BYTES) | PARAMETER(1, FOUR_BYTES) | PARAMETER(2, FOUR_BYTES))

static void sort(long *values, long count, const void *compare)
{
    long k;
    for (k = 1; k < count; k++) {
        long value = values[k];
        long at = k;
        while (at > 0 && CallUniversalProc(compare, COMPARE_INFO, values[at - 1], value) > 0) {
            values[at] = values[at - 1];
            at--;
        }
        values[at] = value;
    }
}

/* The script puts this first, where the 68K part looks for it. */
__attribute__((section(".vector")))
const struct TransitionVector sort_vector = { sort, 0 };
