/* The four functions that a compiler may call by itself, since there is no C library. */

typedef unsigned int size;

void *memcpy(void *restrict to, const void *restrict from, size length) {
    char *restrict target = to;
    const char *restrict source = from;
    while (length--) *target++ = *source++;
    return to;
}

void *memmove(void *to, const void *from, size length) {
    char *target = to;
    const char *source = from;
    if (target < source)
        while (length--) *target++ = *source++;
    else
        while (length--) target[length] = source[length];
    return to;
}

void *memset(void *to, int value, size length) {
    char *target = to;
    while (length--) *target++ = value;
    return to;
}

int memcmp(const void *one, const void *other, size length) {
    const unsigned char *left = one, *right = other;
    for (; length--; left++, right++)
        if (*left != *right) return *left - *right;
    return 0;
}
