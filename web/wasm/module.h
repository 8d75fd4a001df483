// What the files beside the program share: their integers, and the answer of the heap.
#pragma once

typedef unsigned char u8;
typedef unsigned long long u64;
typedef long long i64;

// Whether memory was granted, and where the block stands.
typedef struct { u64 granted; u64 block; } Asked;

Asked rattle_alloc(u64 bytes, u64 alignment);
Asked rattle_realloc(void *block, u64 kept, u64 bytes, u64 alignment);
void rattle_dealloc(void *block);
void heap_empty(void);
