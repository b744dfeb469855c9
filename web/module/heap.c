// The heap of the WebAssembly module, and the few functions that compiled code calls by name where there is no C library. It stands where the
// toolchain's own heap.c stands in the program: rattle_alloc, rattle_realloc and rattle_dealloc. No proof covers either.
//
// A block has 16 * 2^k bytes, after a head of 16 that keeps k. Free blocks of one size are a list. Memory is the engine's (memory.grow), and
// never passes the bound that the host sets.
typedef unsigned long long u64;

// What is given back: whether there was memory, and where. Both are whole words, as compiled code reads them.
struct tried {
    u64 ok;
    void *block;
};

struct head {
    u64 order;
    struct head *next;
};
_Static_assert(sizeof(struct head) == 16, "a block after its head is aligned to 16");

#define PAGE 65536ULL
#define LARGEST (1ULL << 40)

extern unsigned char __heap_base[];
static struct head *unused[48];
static u64 fresh, end, bound = 1ULL << 30;
static _Alignas(16) unsigned char none[16];

static u64 order_of(u64 bytes) { return bytes <= 16 ? 0 : 64 - __builtin_clzll((bytes - 1) >> 4); }

// Adds pages to the memory, if the bound and the engine allow it. A module that is lowered to 32 bits says 2^32 - 1 where the engine refuses.
static _Bool grow(u64 pages) {
    if (end + pages * PAGE > bound || __builtin_wasm_memory_grow(0, pages) >= 0xffffffffULL) return 0;
    end += pages * PAGE;
    return 1;
}

// Makes sure that there are so many bytes that were never used. Where it can, it takes a quarter of the memory more than what is wanted.
static _Bool has_fresh(u64 bytes) {
    if (!fresh) {
        fresh = ((u64)__heap_base + 15) & ~15ULL;
        end = __builtin_wasm_memory_size(0) * PAGE;
    }
    if (end - fresh >= bytes) return 1;
    u64 least = (bytes - (end - fresh) + PAGE - 1) / PAGE, more = end / PAGE / 4;
    return (more > least && grow(more)) || grow(least);
}

static void *take(u64 bytes) {
    if (bytes > LARGEST) return 0;
    u64 order = order_of(bytes);
    struct head *block = unused[order];
    if (block) {
        unused[order] = block->next;
        return block + 1;
    }
    u64 size = sizeof(struct head) + (16ULL << order);
    if (!has_fresh(size)) return 0;
    block = (struct head *)fresh;
    fresh += size;
    block->order = order;
    return block + 1;
}

static void give(void *bytes) {
    struct head *block = (struct head *)bytes - 1;
    block->next = unused[block->order];
    unused[block->order] = block;
}

struct tried rattle_alloc(u64 bytes, u64 align) {
    void *block = take(bytes ? bytes : align);
    return (struct tried){block != 0, block ? block : none};
}

struct tried rattle_realloc(void *old, u64 kept, u64 bytes, u64 align) {
    if (!bytes) bytes = align;
    if (order_of(bytes) == ((struct head *)old - 1)->order) return (struct tried){1, old};
    void *block = take(bytes);
    if (!block) return (struct tried){0, none};
    __builtin_memcpy(block, old, kept < bytes ? kept : bytes);
    give(old);
    return (struct tried){1, block};
}

void rattle_dealloc(void *block) { give(block); }

// For the host: the most bytes that the memory may have, and a block for what it hands over. 0 where there is none.
void host_bound(u64 bytes) { bound = bytes; }
void *host_take(u64 bytes) { return take(bytes); }

// What LLVM calls by name.
void *memmove(void *to, const void *from, u64 count) {
    __asm__ volatile("local.get %0\n\tlocal.get %1\n\tlocal.get %2\n\tmemory.copy 0, 0" ::"r"(to), "r"(from), "r"(count) : "memory");
    return to;
}

void *memcpy(void *to, const void *from, u64 count) { return memmove(to, from, count); }

void *memset(void *to, int byte, u64 count) {
    __asm__ volatile("local.get %0\n\tlocal.get %1\n\tlocal.get %2\n\tmemory.fill 0" ::"r"(to), "r"(byte), "r"(count) : "memory");
    return to;
}

int memcmp(const void *left, const void *right, u64 count) {
    const unsigned char *a = left, *b = right;
    for (u64 i = 0; i < count; i++) {
        if (a[i] != b[i]) return a[i] < b[i] ? -1 : 1;
    }
    return 0;
}

int bcmp(const void *left, const void *right, u64 count) { return memcmp(left, right, count); }
