/* The heap of the WebAssembly library: blocks of powers of two, each size with its list of free ones.
 *
 * A block has a head of 16 bytes, so what is handed out is aligned to 16. Memory grows by memory.grow, up to the limit that
 * the page sets, and is never given back to the browser: a free block serves the next call of its size. Taking and giving
 * take constant time, but for the bytes that a larger block copies. No C library is needed, and no header. */
typedef __UINT64_TYPE__ u64;
typedef __UINT32_TYPE__ u32;
/* As fttcan_heap_block of fttcan_heap.h. */
typedef struct {
    u64 ok;
    void *at;
} answer;
typedef struct block {
    u32 order;
    struct block *next;
    u64 unused;
} block;
enum { HEAD = 16, LEAST = 5, MOST = 31, PAGE = 65536 };
_Static_assert(sizeof(block) == HEAD, "a head has 16 bytes");

extern unsigned char __heap_base;
static block *lists[MOST];
/* Where memory that was never handed out begins and ends; the bytes that are handed out, heads included; their limit. */
static u32 fresh, end;
static u64 held, limit = ~(u64)0;
static unsigned char nothing[16] __attribute__((aligned(16)));

static int grown(u32 size) {
    u32 pages;
    if (!fresh) {
        fresh = ((u32)&__heap_base + 15) & ~(u32)15;
        end = (u32)__builtin_wasm_memory_size(0) * PAGE;
    }
    if (end - fresh >= size)
        return 1;
    pages = (size - (end - fresh) + PAGE - 1) / PAGE;
    /* The last page stays out: no block may reach the end of the address space. */
    if ((u64)__builtin_wasm_memory_size(0) + pages >= 65535)
        return 0;
    if (__builtin_wasm_memory_grow(0, pages) == (__SIZE_TYPE__)-1)
        return 0;
    end += pages * PAGE;
    return 1;
}

static void *take(u64 size) {
    u32 order = LEAST;
    block *it;
    if (size > (u64)1 << (MOST - 1))
        return 0;
    while ((u64)1 << order < size + HEAD)
        order++;
    if (order >= MOST || held + ((u64)1 << order) > limit)
        return 0;
    it = lists[order];
    if (it) {
        lists[order] = it->next;
    } else {
        if (!grown((u32)1 << order))
            return 0;
        it = (block *)fresh;
        fresh += (u32)1 << order;
        it->order = order;
    }
    held += (u64)1 << order;
    return (unsigned char *)it + HEAD;
}

static void give(void *at) {
    block *it = (block *)((unsigned char *)at - HEAD);
    held -= (u64)1 << it->order;
    it->next = lists[it->order];
    lists[it->order] = it;
}

/* The three functions of fttcan_heap.h, which the code of the library calls. */
answer fttcan_heap_alloc(u64 size, u64 align) {
    answer it;
    it.at = take(size ? size : align);
    it.ok = it.at != 0;
    if (!it.ok)
        it.at = nothing;
    return it;
}

answer fttcan_heap_realloc(void *at, u64 kept, u64 size, u64 align) {
    block *head = (block *)((unsigned char *)at - HEAD);
    u64 wanted = size ? size : align;
    answer it = {1, at};
    if (wanted <= ((u64)1 << head->order) - HEAD)
        return it;
    it = fttcan_heap_alloc(wanted, align);
    if (it.ok) {
        __builtin_memcpy(it.at, at, (u32)kept);
        give(at);
    }
    return it;
}

void fttcan_heap_free(void *at) { give(at); }

/* The calls of fttcan.mjs. A room of so many bytes, or 0; what is held; and the most that may be. */
void *fttcan_room_take(u32 size) { return take(size); }
void fttcan_room_give(void *at) { give(at); }
u32 fttcan_room_held(void) { return held > 0xFFFFFFFFu ? 0xFFFFFFFFu : (u32)held; }
void fttcan_room_limit(u32 bytes) { limit = bytes; }
