/* The heap of the program as WebAssembly: it takes the place of the C library's.
 *
 * Memory behind the module's own data is cut into blocks that lie side by side. Each begins with a head of two words: the size of the
 * block in front of it (kept only while that one is free), and its own size with two bits, LIVE and AFTER_LIVE (the block in front is
 * live). A free block is in the list of its size's bin, and never beside another free one. Behind the last block lies the rest, which
 * was never cut or was given back: `rest` is its head. All sizes are multiples of 16, all addresses that are given out too.
 *
 * The three calls are those that the program makes. Each answers whether there was memory, beside the address. */
typedef unsigned long word;
typedef struct {
    word is_there;
    void *at;
} Answer;
typedef struct Block {
    word size_in_front, head;
    struct Block *next, *previous;
} Block;

enum { LIVE = 1, AFTER_LIVE = 2, BITS = 15, HEAD = 16, LEAST = 32, EXACT = 64, BINS = 256 };
static Block *bins[BINS], *rest;
static word has_blocks[BINS / 64], room_end;
static unsigned char nowhere[16] __attribute__((aligned(16)));

#ifdef __wasm__
extern unsigned char __heap_base;
static word first_address(void) { return (word)&__heap_base; }
static word memory_end(void) { return __builtin_wasm_memory_size(0) << 16; }
/* the last page stays free, so that no block ends at 4 GiB; a refusal has 32 bits where addresses of 64 bits were made shorter */
static int grow(word pages) {
    if (pages >= 65536 || __builtin_wasm_memory_size(0) + pages >= 65536) return 0;
    return (unsigned)__builtin_wasm_memory_grow(0, pages) != -1u;
}
#else
word first_address(void), memory_end(void);
int grow(word pages);
#endif

static word size_of(const Block *it) { return it->head & ~(word)BITS; }
static Block *at_offset(Block *it, word bytes) { return (Block *)((char *)it + bytes); }
static word rounded(word bytes) { return (bytes + 15) & ~(word)15; }

/* one bin for each size below 1,024 bytes; above, four for each power of two */
static word bin_of(word size) {
    if (size < 1024) return size / 16;
    word power = 63 - __builtin_clzl(size);
    return EXACT + 4 * (power - 10) + (size >> (power - 2) & 3);
}

static void list(Block *it, word size) {
    word bin = bin_of(size);
    it->head = size | AFTER_LIVE;
    it->previous = 0;
    it->next = bins[bin];
    if (it->next) it->next->previous = it;
    bins[bin] = it;
    has_blocks[bin / 64] |= 1ul << bin % 64;
    Block *behind = at_offset(it, size);
    behind->size_in_front = size;
    behind->head &= ~(word)AFTER_LIVE;
}

static void unlist(Block *it) {
    word bin = bin_of(size_of(it));
    if (it->previous) it->previous->next = it->next;
    else bins[bin] = it->next;
    if (it->next) it->next->previous = it->previous;
    if (!bins[bin]) has_blocks[bin / 64] &= ~(1ul << bin % 64);
}

/* a free block of at least this size, taken out of its list: the first that fits in its own bin, else any of the next bin with one */
static Block *taken(word size) {
    word bin = bin_of(size);
    for (Block *it = bins[bin]; it; it = it->next)
        if (size_of(it) >= size) {
            unlist(it);
            return it;
        }
    bin++;
    for (word group = bin / 64; group < BINS / 64; group++) {
        word found = has_blocks[group];
        if (group == bin / 64) found &= ~0ul << bin % 64;
        if (found) {
            Block *it = bins[64 * group + __builtin_ctzl(found)];
            unlist(it);
            return it;
        }
    }
    return 0;
}

/* whether so many bytes and a further head fit into the rest, which grows where it must: by a sixteenth at least, else by what is needed */
static int has_rest(word size) {
    if (!rest) {
        rest = (Block *)rounded(first_address());
        room_end = memory_end();
        rest->head = AFTER_LIVE;
    }
    word left = room_end - (word)rest;
    if (size + HEAD <= left) return 1;
    word needed = (size + HEAD - left + 65535) >> 16, more = room_end >> 20;
    if (more < needed || !grow(more)) {
        more = needed;
        if (!grow(more)) return 0;
    }
    room_end += more << 16;
    return 1;
}

/* makes the rest's first bytes, or the last block with them, a live block of this size */
static void cut_from_rest(Block *it, word size) {
    rest = at_offset(it, size);
    rest->head = AFTER_LIVE;
    it->head = size | LIVE | (it->head & AFTER_LIVE);
}

/* keeps so much of a block, which has `all` bytes and isn't the last, and frees what is behind that, if it is enough for a block */
static void keep(Block *it, word all, word size) {
    if (all - size < LEAST) size = all;
    it->head = size | LIVE | (it->head & AFTER_LIVE);
    Block *cut = at_offset(it, size), *behind = at_offset(it, all);
    if (size == all) {
        cut->head |= AFTER_LIVE;
        return;
    }
    if (behind != rest && !(behind->head & LIVE)) {
        unlist(behind);
        all += size_of(behind);
    }
    list(cut, all - size);
}

/* what a block must have for so many bytes: its own head, but not the word in front of it, which a live block may use of the next one */
static word block_size(word bytes) { return bytes < LEAST - 8 ? LEAST : rounded(bytes + 8); }

static void *allocated(word bytes) {
    if (bytes >> 40) return 0;
    word size = block_size(bytes);
    Block *it = taken(size);
    if (it) keep(it, size_of(it), size);
    else if (has_rest(size)) cut_from_rest(it = rest, size);
    else return 0;
    return &it->next;
}

Answer rattle_alloc(word bytes, word alignment) {
    void *at = allocated(bytes ? bytes : alignment);
    return (Answer){at != 0, at ? at : nowhere};
}

void rattle_dealloc(void *at) {
    Block *it = (Block *)((char *)at - HEAD);
    word size = size_of(it);
    Block *behind = at_offset(it, size);
    if (!(it->head & AFTER_LIVE)) {
        it = (Block *)((char *)it - it->size_in_front);
        size += size_of(it);
        unlist(it);
    }
    if (behind == rest) {
        rest = it;
        rest->head = AFTER_LIVE;
        return;
    }
    if (!(behind->head & LIVE)) {
        unlist(behind);
        size += size_of(behind);
    }
    list(it, size);
}

/* in its place where the block, with what is free behind it, is large enough; else moved */
Answer rattle_realloc(void *at, word kept, word bytes, word alignment) {
    if (!bytes) bytes = alignment;
    if (bytes >> 40) return (Answer){0, nowhere};
    Block *it = (Block *)((char *)at - HEAD);
    word size = block_size(bytes), has = size_of(it);
    Block *behind = at_offset(it, has);
    if (behind == rest) {
        if (has < size && !has_rest(size - has)) return (Answer){0, nowhere};
        cut_from_rest(it, size);
        return (Answer){1, at};
    }
    if (has >= size) {
        keep(it, has, size);
        return (Answer){1, at};
    }
    if (!(behind->head & LIVE) && has + size_of(behind) >= size) {
        unlist(behind);
        keep(it, has + size_of(behind), size);
        return (Answer){1, at};
    }
    void *moved = allocated(bytes);
    if (!moved) return (Answer){0, nowhere};
    __builtin_memcpy(moved, at, kept < bytes ? kept : bytes);
    rattle_dealloc(at);
    return (Answer){1, moved};
}
