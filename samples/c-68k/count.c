/* Counts the lines, words and bytes of the input. The same source is compiled for both sets: see c-ppc. */
#include "mixedmode.h"

static void put_number(unsigned long number)
{
    char digits[10];
    unsigned long at = sizeof digits;
    do {
        digits[--at] = '0' + number % 10;
        number /= 10;
    } while (number != 0);
    PutBlock(digits + at, sizeof digits - at);
}

static void put_line(const char *name, unsigned long number)
{
    put_number(number);
    PutByte(' ');
    while (*name != 0)
        PutByte(*name++);
    PutByte('\n');
}

int main(void)
{
    unsigned long lines = 0, words = 0, bytes = 0;
    int in_word = 0;
    long byte;
    while ((byte = GetByte()) >= 0) {
        int is_space = byte == ' ' || byte == '\n' || byte == '\t';
        bytes++;
        lines += byte == '\n';
        words += !is_space && !in_word;
        in_word = !is_space;
    }
    put_line("lines", lines);
    put_line("words", words);
    put_line("bytes", bytes);
    return 0;
}
