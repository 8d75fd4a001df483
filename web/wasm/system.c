// What the program asks of the system: its words, its files, its input, output and report, all in the module's memory. The page
// puts words, files and input there before a call, and takes output and report behind it.
#include "module.h"

enum { BAD_FILE = 9, NO_SUCH_FILE = 2, NO_SPACE = 28 };
enum { WORDS = 16, FILES = 8, OPEN = 16 };
enum { INPUT, OUTPUT, REPORT, STREAMS };

typedef struct { u8 *bytes; u64 size; u64 room; } Bytes;
typedef struct { u8 *name; Bytes content; } File;
typedef struct { int is_open; int file; u64 at; } Opened;

static u8 *word[WORDS];
static u64 words;
static File file[FILES];
static int files;
static Opened opened[OPEN];
static Bytes stream[STREAMS];
static u64 input_at;
static int error;

// What the page calls.

// Begins a call: no words, no files, nothing on any stream, an empty heap.
void page_begin(void) {
    heap_empty();
    words = 0;
    files = 0;
    input_at = 0;
    error = 0;
    for (int at = 0; at < STREAMS; at++)
        stream[at] = (Bytes){0, 0, 0};
    for (int at = 0; at < OPEN; at++)
        opened[at].is_open = 0;
}

// Room for bytes that the page writes next: 0 where memory is refused.
u8 *page_room(u64 bytes) {
    Asked asked = rattle_alloc(bytes, 16);
    return asked.granted ? (u8 *)asked.block : 0;
}

// The next word of the command line, which ends in a zero byte.
void page_word(u8 *text) {
    if (words < WORDS)
        word[words++] = text;
}

// One more file, with its name, which ends in a zero byte.
void page_file(u8 *name, u8 *bytes, u64 size) {
    if (files < FILES)
        file[files++] = (File){name, {bytes, size, size}};
}

void page_input(u8 *bytes, u64 size) { stream[INPUT] = (Bytes){bytes, size, size}; }

u8 *page_bytes(int of) { return stream[of].bytes; }

u64 page_size(int of) { return stream[of].size; }

// What the program calls.

// The word of a place into the room: its length, or -1 where there is none, or -2 where it has no room.
i64 rattle_arg(u64 place, u8 *into, u64 room) {
    if (place >= words)
        return -1;
    u64 length = 0;
    for (; word[place][length]; length++) {
        if (length == room)
            return -2;
        into[length] = word[place][length];
    }
    return (i64)length;
}

// There is no environment.
i64 rattle_env(const u8 *name, u8 *into, u64 room) { return -1; }

i64 rattle_env_at(u64 place, u8 *into, u64 room) { return -1; }

i64 __sysv_signal(int number, i64 handler) { return 0; }

void rattle_set_errno(int number) { error = number; }

int rattle_errno(void) { return error; }

static int is_same(const u8 *left, const u8 *right) {
    while (*left && *left == *right)
        left++, right++;
    return *left == *right;
}

static int fails(int number) {
    error = number;
    return -1;
}

static int found(const u8 *name) {
    for (int at = 0; at < files; at++)
        if (is_same(file[at].name, name))
            return at;
    return -1;
}

// Descriptors stand behind those of the three streams.
int open(const u8 *name, int flags, ...) {
    int at = found(name);
    if (at < 0)
        return fails(NO_SUCH_FILE);
    for (int place = 0; place < OPEN; place++)
        if (!opened[place].is_open) {
            opened[place] = (Opened){1, at, 0};
            return place + STREAMS;
        }
    return fails(NO_SPACE);
}

static Opened *opened_as(int descriptor) {
    int place = descriptor - STREAMS;
    return place >= 0 && place < OPEN && opened[place].is_open ? &opened[place] : 0;
}

int close(int descriptor) {
    Opened *it = opened_as(descriptor);
    if (!it)
        return fails(BAD_FILE);
    it->is_open = 0;
    return 0;
}

static i64 taken(const Bytes *from, u64 *at, u8 *into, u64 most) {
    u64 left = from->size - *at;
    u64 count = most < left ? most : left;
    if (count)
        __builtin_memcpy(into, from->bytes + *at, count);
    *at += count;
    return (i64)count;
}

i64 read(int descriptor, u8 *into, u64 most) {
    if (descriptor == INPUT)
        return taken(&stream[INPUT], &input_at, into, most);
    Opened *it = opened_as(descriptor);
    return it ? taken(&file[it->file].content, &it->at, into, most) : fails(BAD_FILE);
}

static int has_room(Bytes *into, u64 more) {
    u64 wanted = into->size + more;
    if (wanted <= into->room)
        return 1;
    u64 room = wanted < 65536 ? 65536 : 2 * wanted;
    Asked asked = into->bytes ? rattle_realloc(into->bytes, into->size, room, 16) : rattle_alloc(room, 16);
    if (!asked.granted)
        return 0;
    into->bytes = (u8 *)asked.block;
    into->room = room;
    return 1;
}

i64 write(int descriptor, const u8 *from, u64 count) {
    if (descriptor != OUTPUT && descriptor != REPORT)
        return fails(BAD_FILE);
    Bytes *into = &stream[descriptor];
    if (!has_room(into, count))
        return fails(NO_SPACE);
    if (count)
        __builtin_memcpy(into->bytes + into->size, from, count);
    into->size += count;
    return (i64)count;
}
