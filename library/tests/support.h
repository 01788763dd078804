/* What the tests of the library share. A test prints a line for each thing that is wrong, and ends with 1 then. */
#ifndef FTTCAN_TESTS_SUPPORT_H
#define FTTCAN_TESTS_SUPPORT_H
#include "fttcan.h"
#include <inttypes.h>
#include <stdio.h>
#include <stdlib.h>
#include <string.h>

static int wrong;

#define WANT(what) \
    do { \
        if (!(what)) { \
            printf("%s:%d: %s\n", __FILE__, __LINE__, #what); \
            wrong++; \
        } \
    } while (0)

/* Has a call answer this status. */
#define STATUS(wanted, call) \
    do { \
        uint32_t answered = (call); \
        if (answered != (wanted)) { \
            printf("%s:%d: %s is %s, and not %s\n", __FILE__, __LINE__, #call, fttcan_status_name(answered), \
                   fttcan_status_name(wanted)); \
            wrong++; \
        } \
    } while (0)

static inline int same_mask(fttcan_mask a, fttcan_mask b) { return a.low == b.low && a.high == b.high; }

static inline int same_verdict(const fttcan_verdict *a, const fttcan_verdict *b) {
    return a->first == b->first && a->second == b->second && a->kind == b->kind && a->op == b->op && a->why == b->why
        && a->slot == b->slot && a->known == b->known;
}

static inline int same_entry(const fttcan_entry *a, const fttcan_entry *b) {
    return a->phase == b->phase && a->period == b->period && a->deadline == b->deadline && a->slot == b->slot
        && a->node == b->node && a->length == b->length && a->priority == b->priority;
}

static inline int same_placed(const fttcan_placed *a, const fttcan_placed *b) {
    return a->origin == b->origin && !a->ended == !b->ended && (!a->ended || a->end == b->end)
        && same_entry(&a->entry, &b->entry);
}

static inline int ended(const char *name) {
    if (wrong)
        printf("%s: %d wrong\n", name, wrong);
    return wrong != 0;
}
#endif
