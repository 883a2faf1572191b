// The heap of the page's module, over which bindings/targets/heap.c stands and from which the page takes room for its own bytes; and the
// steps on 128 bits that the compiler leaves to a library. A block has room for 16, 32, 64 .. bytes after a header of 16; free ones
// are in a list for each size.
typedef __SIZE_TYPE__ word;
typedef unsigned __int128 u128;
typedef union { u128 whole; word of[2]; } Wide;
typedef struct Block { word room; struct Block *next; } Block;

extern unsigned char __heap_base;
static word top, end;
static Block *lists[64];

// A block behind all others, for which the memory grows.
static Block *fresh(word room) {
    word size = room + 16;
    if (!top) {
        top = ((word)&__heap_base + 15) & ~(word)15;
        end = __builtin_wasm_memory_size(0) << 16;
    }
    if (end - top < size) {
        word pages = (size - (end - top) + 65535) >> 16;
        if (__builtin_wasm_memory_grow(0, pages) == ~(word)0) return 0;
        end += pages << 16;
    }
    Block *block = (Block *)top;
    top += size;
    block->room = room;
    return block;
}

void *malloc(word bytes) {
    word room = 16;
    if (bytes >> 40) return 0;
    while (room < bytes) room <<= 1;
    Block **list = &lists[__builtin_ctzll(room)], *block = *list;
    if (block) *list = block->next;
    else block = fresh(room);
    return block ? (char *)block + 16 : 0;
}

void free(void *at) {
    Block *block = (Block *)((char *)at - 16), **list = &lists[__builtin_ctzll(block->room)];
    block->next = *list;
    *list = block;
}

void *realloc(void *at, word bytes) {
    word room = ((Block *)((char *)at - 16))->room;
    if (bytes <= room) return at;
    void *other = malloc(bytes);
    if (!other) return 0;
    __builtin_memcpy(other, at, room);
    free(at);
    return other;
}

u128 __ashlti3(u128 whole, int by) {
    Wide it = {whole};
    if (by >= 64) return ((Wide){.of = {0, it.of[0] << (by - 64)}}).whole;
    return by ? ((Wide){.of = {it.of[0] << by, it.of[1] << by | it.of[0] >> (64 - by)}}).whole : whole;
}

u128 __lshrti3(u128 whole, int by) {
    Wide it = {whole};
    if (by >= 64) return ((Wide){.of = {it.of[1] >> (by - 64), 0}}).whole;
    return by ? ((Wide){.of = {it.of[0] >> by | it.of[1] << (64 - by), it.of[1] >> by}}).whole : whole;
}

u128 __multi3(u128 one, u128 other) {
    Wide x = {one}, y = {other};
    word a = x.of[0], b = y.of[0], mask = 0xffffffff;
    word low = (a & mask) * (b & mask), left = (a >> 32) * (b & mask), right = (a & mask) * (b >> 32);
    word middle = (low >> 32) + (left & mask) + (right & mask), high = (a >> 32) * (b >> 32) + (left >> 32) + (right >> 32) + (middle >> 32);
    return ((Wide){.of = {middle << 32 | (low & mask), high + a * y.of[1] + x.of[1] * b}}).whole;
}
