/* Adds up the lengths of the input's lines with the counter in slot 0 and notes each on the tape in slot 1,
   then ejects the counter and asks it again. */
#include "mixedmode.h"

enum { COUNTER = 0, TAPE = 1 };

/* The answer, or the error, which is negative. */
static long ask(unsigned long slot, unsigned long word)
{
    long long both = AskDevice(slot, word);
    long error = both >> 32;
    return error != 0 ? error : (long)both;
}

static void put_digits(unsigned long number)
{
    PutByte('0' + number / 10 % 10);
    PutByte('0' + number % 10);
}

int main(void)
{
    long length = 0, byte;
    while ((byte = GetByte()) >= 0) {
        if (byte != '\n') {
            length++;
            continue;
        }
        put_digits(ask(TAPE, length));
        PutByte(' ');
        put_digits(ask(COUNTER, length));
        PutByte('\n');
        length = 0;
    }
    EjectDevice(COUNTER);
    return -ask(COUNTER, 1);
}
