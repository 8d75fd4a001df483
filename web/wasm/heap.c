// The heap that the program asks for memory: blocks of a few sizes, taken from the module's memory and kept by size when they are
// given back. Each call of the program begins with an empty heap, as a process does.
#include "module.h"

extern u8 __heap_base;

// Before each block stands which size it has; the block itself is aligned to 16 bytes.
typedef struct { u64 size; u64 unused; } Head;
typedef struct Spare { struct Spare *next; } Spare;

enum { SMALLEST = 5, SIZES = 32 };
static const u64 MOST = (u64)1 << 30;

static u8 *fresh;
static u8 *end;
static Spare *spare[SIZES];

// Where a block stands that was not granted: the kit's own heap answers such an address too.
static u8 nothing;

// The number of the least power of two that has room for so many bytes.
static u64 size_for(u64 bytes) {
    return bytes <= (u64)1 << SMALLEST ? SMALLEST : 64 - (u64)__builtin_clzll(bytes - 1);
}

static u8 *from_memory(u64 bytes) {
    u64 left = (u64)(end - fresh);
    if (left < bytes) {
        u64 pages = (bytes - left + 0xffff) >> 16;
        // Where it is refused: -1, of which the module with 32-bit memory has the low half.
        if ((unsigned)__builtin_wasm_memory_grow(0, pages) == (unsigned)-1)
            return 0;
        end += pages << 16;
    }
    u8 *block = fresh;
    fresh += bytes;
    return block;
}

static void *take(u64 bytes) {
    if (bytes > MOST)
        return 0;
    u64 size = size_for(bytes);
    if (spare[size]) {
        Spare *block = spare[size];
        spare[size] = block->next;
        return block;
    }
    Head *head = (Head *)from_memory(sizeof(Head) + ((u64)1 << size));
    if (!head)
        return 0;
    head->size = size;
    return head + 1;
}

static u64 size_of(void *block) { return ((Head *)block - 1)->size; }

void heap_empty(void) {
    fresh = (u8 *)(((u64)&__heap_base + 15) & ~(u64)15);
    end = (u8 *)(__builtin_wasm_memory_size(0) << 16);
    for (int size = 0; size < SIZES; size++)
        spare[size] = 0;
}

Asked rattle_alloc(u64 bytes, u64 alignment) {
    void *block = alignment <= 16 ? take(bytes) : 0;
    return block ? (Asked){1, (u64)block} : (Asked){0, (u64)&nothing};
}

void rattle_dealloc(void *block) {
    u64 size = size_of(block);
    ((Spare *)block)->next = spare[size];
    spare[size] = block;
}

Asked rattle_realloc(void *block, u64 kept, u64 bytes, u64 alignment) {
    if (bytes <= (u64)1 << size_of(block))
        return (Asked){1, (u64)block};
    Asked moved = rattle_alloc(bytes, alignment);
    if (!moved.granted)
        return moved;
    __builtin_memcpy((void *)moved.block, block, kept);
    rattle_dealloc(block);
    return moved;
}
