/* The heap of the WebAssembly module, which has no C library: blocks in lists by their sizes, on memory that grows by pages. Not proved. */
typedef unsigned long long u64;

extern unsigned char __heap_base;

/* What the solver is told of a request: whether it was met, and where. */
struct tried {
    u64 is_met;
    u64 at;
};

/* A block: its class and its size, and behind them the bytes that are handed out. */
struct block {
    u64 class;
    u64 size;
};

enum { HEAD = sizeof(struct block), PAGE = 65536, FEWEST_PAGES = 64, CLASSES = 512, LEAST = 32 };

static const u64 MOST = 1ull << 40;
static u64 top, end;
static u64 free_blocks[CLASSES];

/* The class of a size, of which there are four for each power of two, and the size of its blocks. */
static unsigned class_of(u64 wanted, u64 *size) {
    u64 least = wanted < LEAST ? LEAST : wanted;
    u64 step = 1ull << (61 - __builtin_clzll(least));
    *size = (least + step - 1) & ~(step - 1);
    unsigned power = 63 - (unsigned)__builtin_clzll(*size);
    return power << 2 | (unsigned)(*size >> (power - 2) & 3);
}

/* Whether the memory grew by so many pages. A refusal has the low 32 bits set, also where the memory is one of 32 bits in the end. */
static int grew(u64 pages) {
    if ((int)__builtin_wasm_memory_grow(0, pages) == -1) return 0;
    end += pages * PAGE;
    return 1;
}

/* New memory, or 0. */
static u64 fresh(u64 size) {
    if (!top) {
        top = ((u64)&__heap_base + 15) & ~15ull;
        end = (u64)__builtin_wasm_memory_size(0) * PAGE;
    }
    if (size > end - top) {
        u64 pages = (size - (end - top) + PAGE - 1) / PAGE;
        if (!grew(pages < FEWEST_PAGES ? FEWEST_PAGES : pages) && !grew(pages)) return 0;
    }
    u64 at = top;
    top += size;
    return at;
}

static u64 take(u64 wanted) {
    if (wanted > MOST) return 0;
    u64 size;
    unsigned class = class_of(wanted + HEAD, &size);
    u64 at = free_blocks[class];
    if (at) {
        free_blocks[class] = *(u64 *)(at + HEAD);
    } else {
        size = (size + 15) & ~15ull;
        at = fresh(size);
        if (!at) return 0;
        struct block made = {class, size};
        *(struct block *)at = made;
    }
    return at + HEAD;
}

static void give(u64 at) {
    struct block *block = (struct block *)(at - HEAD);
    *(u64 *)at = free_blocks[block->class];
    free_blocks[block->class] = (u64)block;
}

struct tried rattle_alloc(u64 size, u64 align) {
    u64 at = take(size ? size : align);
    struct tried found = {at != 0, at ? at : 16};
    return found;
}

void rattle_dealloc(u64 at) {
    give(at);
}

struct tried rattle_realloc(u64 at, u64 kept, u64 size, u64 align) {
    u64 wanted = size ? size : align;
    u64 room = ((struct block *)(at - HEAD))->size - HEAD;
    struct tried found = {1, at};
    if (wanted <= room && wanted * 4 >= room) return found;
    u64 other = take(wanted);
    if (!other) {
        found.is_met = 0;
        found.at = 16;
        return found;
    }
    __builtin_memcpy((void *)other, (void *)at, kept < size ? kept : size);
    give(at);
    found.at = other;
    return found;
}

/* Room for what the page hands over, or 0. */
__attribute__((export_name("pq_room"))) u64 pq_room(u64 size) {
    return take(size);
}

__attribute__((export_name("pq_free"))) void pq_free(u64 at) {
    give(at);
}
