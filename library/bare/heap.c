/* The heap of fttcan_bare.h: buddies. A block of order n has 2^n bytes and begins at a multiple of 2^n of its arena. Two
 * halves of a block are buddies: if both are free, they become that block again. Each block begins with a head, and free
 * blocks of an order are a list. All of that stands in the arena, as distances from its base. */
#include "fttcan_bare.h"
#include <string.h>

enum { LEAST = 5, MOST = 30, ORDERS = MOST + 1 };
/* In place of a distance: none. */
static const uint32_t NONE = 0xFFFFFFFFu;

/* In front of each block. In a free one `next` and `before` are its neighbours in the list of its order. */
typedef struct {
    uint16_t order;
    uint16_t is_free;
    uint32_t next, before, unused;
} head;

typedef struct {
    fttcan_heap_numbers told;
    uint32_t lists[ORDERS];
} heap;

/* The heap's own bytes in front of the blocks. */
enum { OWN = (sizeof(heap) + 15) / 16 * 16 };

static heap *in_use;
static _Alignas(16) unsigned char nothing[16];

static head *head_at(uint32_t place) { return (head *)(void *)((unsigned char *)in_use + OWN + place); }

static uint32_t place_of(const void *block) { return (uint32_t)((const unsigned char *)block - (const unsigned char *)in_use - OWN - sizeof(head)); }

static void put(uint32_t place, unsigned order) {
    head *it = head_at(place);
    it->order = (uint16_t)order;
    it->is_free = 1;
    it->before = NONE;
    it->next = in_use->lists[order];
    if (it->next != NONE)
        head_at(it->next)->before = place;
    in_use->lists[order] = place;
}

static void taken_out(uint32_t place) {
    head *it = head_at(place);
    if (it->before == NONE)
        in_use->lists[it->order] = it->next;
    else
        head_at(it->before)->next = it->next;
    if (it->next != NONE)
        head_at(it->next)->before = it->before;
    it->is_free = 0;
}

/* The least order whose blocks hold so many bytes, or ORDERS. */
static unsigned order_for(uint64_t size) {
    unsigned order = LEAST;
    if (size > ((uint64_t)1 << MOST) - sizeof(head))
        return ORDERS;
    while (((uint64_t)1 << order) < size + sizeof(head))
        order++;
    return order;
}

static void *take(uint64_t size) {
    const unsigned wanted = order_for(size);
    unsigned order = wanted;
    uint32_t place;
    if (in_use == NULL)
        return NULL;
    while (order < ORDERS && in_use->lists[order] == NONE)
        order++;
    if (order >= ORDERS) {
        in_use->told.refused++;
        in_use->told.lacking = size;
        return NULL;
    }
    place = in_use->lists[order];
    taken_out(place);
    while (order > wanted) {
        order--;
        put(place + ((uint32_t)1 << order), order);
    }
    head_at(place)->order = (uint16_t)wanted;
    in_use->told.held += (uint64_t)1 << wanted;
    if (in_use->told.held > in_use->told.most)
        in_use->told.most = in_use->told.held;
    return (unsigned char *)head_at(place) + sizeof(head);
}

static void give(void *block) {
    uint32_t place = place_of(block);
    unsigned order = head_at(place)->order;
    in_use->told.held -= (uint64_t)1 << order;
    while (order < MOST) {
        const uint32_t buddy = place ^ ((uint32_t)1 << order);
        if ((uint64_t)buddy + ((uint64_t)1 << order) > in_use->told.bytes || !head_at(buddy)->is_free || head_at(buddy)->order != order)
            break;
        taken_out(buddy);
        place &= ~((uint32_t)1 << order);
        order++;
    }
    put(place, order);
}

int fttcan_heap_begin(void *arena, fttcan_size bytes) {
    uint32_t place = 0;
    unsigned order;
    if (arena == NULL || ((uintptr_t)arena & 15) != 0 || bytes < 256 || bytes > (uint64_t)1 << MOST)
        return 0;
    in_use = arena;
    memset(in_use, 0, OWN);
    in_use->told.bytes = (bytes - OWN) & ~(uint64_t)((1 << LEAST) - 1);
    for (order = 0; order < ORDERS; order++)
        in_use->lists[order] = NONE;
    /* The arena as blocks, each as large as what is left has room for. */
    for (order = MOST; order >= LEAST; order--)
        if (in_use->told.bytes - place >= (uint64_t)1 << order) {
            put(place, order);
            place += (uint32_t)1 << order;
        }
    return 1;
}

void fttcan_heap_use(void *arena) { in_use = arena; }

fttcan_heap_numbers fttcan_heap_told(void) {
    static const fttcan_heap_numbers none;
    return in_use == NULL ? none : in_use->told;
}

static fttcan_heap_block answer(void *block) {
    fttcan_heap_block it = {block != NULL, block != NULL ? block : nothing};
    return it;
}

fttcan_heap_block fttcan_heap_alloc(fttcan_size size, fttcan_size align) { return answer(take(size ? size : align)); }

fttcan_heap_block fttcan_heap_realloc(void *at, fttcan_size kept, fttcan_size size, fttcan_size align) {
    const uint64_t wanted = size ? size : align;
    void *to = at;
    if (order_for(wanted) > head_at(place_of(at))->order) {
        to = take(wanted);
        if (to != NULL) {
            memcpy(to, at, (size_t)kept);
            give(at);
        }
    }
    return answer(to);
}

void fttcan_heap_free(void *at) { give(at); }
