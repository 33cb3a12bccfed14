/* The four functions that gcc may call where a program copies, fills or compares whole objects. */
typedef unsigned long size;

void *memcpy(void *to, const void *from, size count)
{
    char *target = to;
    const char *source = from;
    while (count-- != 0)
        *target++ = *source++;
    return to;
}

void *memmove(void *to, const void *from, size count)
{
    char *target = to;
    const char *source = from;
    if (target <= source)
        return memcpy(to, from, count);
    while (count-- != 0)
        target[count] = source[count];
    return to;
}

void *memset(void *to, int byte, size count)
{
    char *target = to;
    while (count-- != 0)
        *target++ = byte;
    return to;
}

int memcmp(const void *left, const void *right, size count)
{
    const unsigned char *first = left, *second = right;
    for (; count != 0; first++, second++, count--)
        if (*first != *second)
            return *first - *second;
    return 0;
}
