/* 68K code: sorts a table by a PowerPC routine, which asks a 68K routine how two values compare. */
#include "mixedmode.h"

static long compare(long left, long right)
{
    return left < right ? -1 : left > right;
}

/* C convention: a long is given, two longs are taken. */
static const struct RoutineDescriptor compare_routine = DESCRIPTOR(
    C_CALL | RESULT(FOUR_BYTES) | PARAMETER(1, FOUR_BYTES) | PARAMETER(2, FOUR_BYTES),
    CODE_68K, compare);

/* Where the PowerPC part of the image has its transition vector. */
extern const struct TransitionVector sort_vector;

/* C convention: nothing is given; an address, a long and an address are taken. */
static const struct RoutineDescriptor sort_routine = DESCRIPTOR(
    C_CALL | PARAMETER(1, FOUR_BYTES) | PARAMETER(2, FOUR_BYTES) | PARAMETER(3, FOUR_BYTES),
    CODE_PPC, &sort_vector);

typedef void (*Sort)(long *values, long count, const struct RoutineDescriptor *compare);

static void put_number(long number)
{
    if (number < 0) {
        PutByte('-');
        number = -number;
    }
    if (number >= 10)
        put_number(number / 10);
    PutByte('0' + number % 10);
}

static long values[] = { 30, -4, 1994, 7, 68 };

int main(void)
{
    int k;
    /* For 68K code a descriptor is a routine like any other. */
    ((Sort)&sort_routine)(values, 5, &compare_routine);
    for (k = 0; k < 5; k++) {
        put_number(values[k]);
        PutByte('\n');
    }
    return 0;
}
