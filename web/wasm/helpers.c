// What a compiler calls by name where it has no instruction for it: bytes in memory, and integers of 128 bits.
#include "module.h"

typedef unsigned __int128 u128;
typedef __int128 i128;

// WebAssembly has an instruction for each of the first three.
void *memcpy(void *into, const void *from, u64 count) { return __builtin_memcpy(into, from, count); }

void *memmove(void *into, const void *from, u64 count) { return __builtin_memmove(into, from, count); }

void *memset(void *into, int byte, u64 count) { return __builtin_memset(into, byte, count); }

int memcmp(const void *left, const void *right, u64 count) {
    const u8 *a = left, *b = right;
    for (u64 at = 0; at < count; at++)
        if (a[at] != b[at])
            return a[at] < b[at] ? -1 : 1;
    return 0;
}

int bcmp(const void *left, const void *right, u64 count) { return memcmp(left, right, count); }

static u128 joined(u64 low, u64 high) { return (u128)high << 64 | low; }

// The product of two words, by their halves of 32 bits.
static u128 product(u64 a, u64 b) {
    u64 half = 0xffffffff;
    u64 low = (a & half) * (b & half);
    u64 first = (a >> 32) * (b & half) + (low >> 32);
    u64 second = (a & half) * (b >> 32) + (first & half);
    u64 high = (a >> 32) * (b >> 32) + (first >> 32) + (second >> 32);
    return joined((second << 32) | (low & half), high);
}

u128 __multi3(u64 a_low, u64 a_high, u64 b_low, u64 b_high) {
    u128 result = product(a_low, b_low);
    u64 high = (u64)(result >> 64) + a_low * b_high + a_high * b_low;
    return joined((u64)result, high);
}

u128 __ashlti3(u64 low, u64 high, int by) {
    if (by == 0)
        return joined(low, high);
    if (by >= 64)
        return joined(0, low << (by - 64));
    return joined(low << by, high << by | low >> (64 - by));
}

u128 __lshrti3(u64 low, u64 high, int by) {
    if (by == 0)
        return joined(low, high);
    if (by >= 64)
        return joined(high >> (by - 64), 0);
    return joined(low >> by | high << (64 - by), high >> by);
}

u128 __ashrti3(u64 low, u64 high, int by) {
    u64 sign = (u64)((i64)high >> 63);
    if (by == 0)
        return joined(low, high);
    if (by >= 64)
        return joined((u64)((i64)high >> (by - 64)), sign);
    return joined(low >> by | high << (64 - by), (u64)((i64)high >> by));
}
