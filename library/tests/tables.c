/* Plays random tables that tools/ftt_build/tables.py wrote, and prints a line for each: a sum over all verdicts and orders, which
 * has to be that of tools/reference.
 *
 *     tables all FILE             each table from its first row to its last; before every change the master is saved, let go and
 *                                 restored
 *     tables front FILE STATES    each table up to its middle; the states are written to STATES
 *     tables back FILE STATES     each table from the state in STATES on
 *     tables small FILE ARENA     with an arena of so many bytes for a master, and a second master with enough memory, which is
 *                                 asked what the first one had memory for: both open the same cycles
 *
 * FILE has rows of numbers: R rules, C a change, N cycles to open, H the middle, F the end of a table. */
#include "fttcan_bare.h"
#include "support.h"

enum { LARGE = 1 << 18 };
static _Alignas(16) unsigned char arena[LARGE], second[LARGE];
static uint64_t sum;
static uint8_t state[1 << 15];
static fttcan_size state_len;
static unsigned long refused, accepted, opened, saves;

static void add(const char *text) {
    for (; *text; text++)
        sum = (sum ^ (uint8_t)*text) * UINT64_C(0x100000001b3);
}

static void add_number(uint64_t number, int base) {
    char digits[24];
    int at = 23;
    digits[at] = 0;
    do
        digits[--at] = "0123456789abcdef"[number % (unsigned)base];
    while (number /= (unsigned)base);
    add(" ");
    add(digits + at);
}

static char line[1 << 12];
static const char *at;

static uint64_t number(void) { return strtoull(at, (char **)(uintptr_t)&at, 10); }

static fttcan_rules rules_of_line(void) {
    fttcan_rules r = {0, 0, 0, 0, 0, 0};
    r.horizon = number();
    r.window = (uint32_t)number();
    r.nodes = (uint8_t)number();
    r.slots = (uint8_t)number();
    r.policy = (uint8_t)number();
    r.fill = (uint8_t)number();
    return r;
}

static fttcan_op ops[32];

static fttcan_size change_of_line(uint8_t *caller, uint64_t *start) {
    fttcan_size count, place;
    *caller = (uint8_t)number();
    *start = number();
    count = number();
    for (place = 0; place < count; place++) {
        fttcan_op *op = &ops[place];
        op->kind = (uint8_t)number();
        op->entry.slot = (uint8_t)number();
        op->entry.node = (uint8_t)number();
        op->entry.phase = (uint16_t)number();
        op->entry.period = (uint16_t)number();
        op->entry.deadline = (uint16_t)number();
        op->entry.length = (uint8_t)number();
        op->entry.priority = (uint8_t)number();
    }
    return count;
}

static void add_verdict(const fttcan_verdict *v) {
    add("v");
    add_number(v->kind, 10);
    add_number(v->why > 3 ? v->op : 0, 10);
    add_number(v->why, 10);
    add_number(v->slot, 10);
    add_number(v->known, 10);
    add_number(v->first, 10);
    add_number(v->second, 10);
    add("\n");
}

static void add_order(const fttcan_order *o) {
    add("o");
    add_number(o->cycle, 10);
    add_number(o->flags.low, 16);
    add_number(o->flags.high, 16);
    add_number(o->window, 10);
    add_number(o->learned, 10);
    add("\n");
    opened++;
}

static void save(fttcan_master *m) {
    state_len = 0;
    STATUS(FTTCAN_OK, fttcan_master_save(m, state, sizeof state, &state_len));
    saves++;
}

static void restored(fttcan_master *m) { STATUS(FTTCAN_OK, fttcan_master_restore(m, state, state_len)); }

static void tell(void) {
    printf("f %08lx%08lx\n", (unsigned long)(sum >> 32), (unsigned long)(sum & 0xFFFFFFFFu));
    sum = UINT64_C(0xcbf29ce484222325);
}

/* The states of all tables, each after its length. */
static void write_state(FILE *states) {
    const uint8_t head[2] = {(uint8_t)(state_len & 255), (uint8_t)(state_len >> 8)};
    WANT(fwrite(head, 1, 2, states) == 2 && fwrite(state, 1, (size_t)state_len, states) == state_len);
}

static void read_state(FILE *states) {
    uint8_t head[2] = {0, 0};
    WANT(fread(head, 1, 2, states) == 2);
    state_len = (fttcan_size)(head[0] | head[1] << 8);
    WANT(fread(state, 1, (size_t)state_len, states) == state_len);
}

/* The whole of each table, or one half. `which` is 0 for all of it, 1 for the front, 2 for the back. */
static void play(FILE *file, FILE *states, int which) {
    fttcan_master m = {0};
    int half = 1;
    while (fgets(line, sizeof line, file) != NULL && !wrong) {
        const int is_played = which == 0 || which == half;
        at = line + 1;
        if (*line == 'R') {
            const fttcan_rules rules = rules_of_line();
            half = 1;
            sum = UINT64_C(0xcbf29ce484222325);
            if (which < 2)
                STATUS(FTTCAN_OK, fttcan_master_new(&m, &rules));
        } else if (*line == 'C' && is_played) {
            uint8_t caller;
            uint64_t start;
            const fttcan_size count = change_of_line(&caller, &start);
            fttcan_verdict v = {0, 0, 0, 0, 0, 0, 0};
            if (which == 0) {
                save(&m);
                fttcan_master_free(&m);
                restored(&m);
            }
            STATUS(FTTCAN_OK, fttcan_master_submit(&m, caller, start, ops, count, &v));
            accepted += v.kind == FTTCAN_ACCEPTED;
            add_verdict(&v);
        } else if (*line == 'N' && is_played) {
            uint64_t cycles = number();
            while (cycles--) {
                fttcan_order order = {0, {0, 0}, 0, 0};
                STATUS(FTTCAN_OK, fttcan_master_open(&m, &order));
                add_order(&order);
            }
        } else if (*line == 'H') {
            half = 2;
            if (which == 1) {
                save(&m);
                write_state(states);
            } else if (which == 2) {
                read_state(states);
                restored(&m);
                sum = UINT64_C(0xcbf29ce484222325);
            }
            if (which == 1)
                tell();
        } else if (*line == 'F') {
            if (which != 1)
                tell();
            fttcan_master_free(&m);
        }
    }
}

/* Two masters: the first one with little memory. Each call on a master uses its own heap. */
static void play_small(FILE *file, unsigned long bytes) {
    fttcan_master m = {0}, twin = {0};
    int is_there = 0;
    WANT(fttcan_heap_begin(second, sizeof second));
    WANT(fttcan_heap_begin(arena, bytes));
    while (fgets(line, sizeof line, file) != NULL && !wrong) {
        at = line + 1;
        if (*line == 'R') {
            const fttcan_rules rules = rules_of_line();
            const uint32_t status = fttcan_master_new(&m, &rules);
            is_there = status == FTTCAN_OK;
            WANT(is_there || status == FTTCAN_MEMORY);
            fttcan_heap_use(second);
            if (is_there)
                STATUS(FTTCAN_OK, fttcan_master_new(&twin, &rules));
            fttcan_heap_use(arena);
        } else if (*line == 'C' && is_there) {
            uint8_t caller;
            uint64_t start;
            const fttcan_size count = change_of_line(&caller, &start), held = fttcan_heap_told().held;
            fttcan_verdict v = {0, 0, 0, 0, 0, 0, 0}, other = v;
            const uint32_t status = fttcan_master_submit(&m, caller, start, ops, count, &v);
            if (status == FTTCAN_MEMORY) {
                refused++;
                WANT(same_verdict(&v, &other) && fttcan_heap_told().held == held);
                continue;
            }
            STATUS(FTTCAN_OK, status);
            fttcan_heap_use(second);
            STATUS(FTTCAN_OK, fttcan_master_submit(&twin, caller, start, ops, count, &other));
            fttcan_heap_use(arena);
            WANT(same_verdict(&v, &other));
            accepted += v.kind == FTTCAN_ACCEPTED;
        } else if (*line == 'N' && is_there) {
            uint64_t cycles = number();
            while (cycles--) {
                fttcan_order order = {0, {0, 0}, 0, 0}, other = order;
                STATUS(FTTCAN_OK, fttcan_master_open(&m, &order));
                fttcan_heap_use(second);
                STATUS(FTTCAN_OK, fttcan_master_open(&twin, &other));
                fttcan_heap_use(arena);
                WANT(order.cycle == other.cycle && same_mask(order.flags, other.flags) && order.window == other.window
                     && order.learned == other.learned);
                opened++;
            }
        } else if (*line == 'F') {
            fttcan_master_free(&m);
            WANT(fttcan_heap_told().held == 0);
            fttcan_heap_use(second);
            fttcan_master_free(&twin);
            WANT(fttcan_heap_told().held == 0);
            fttcan_heap_use(arena);
        }
    }
    printf("refused %lu, accepted %lu, opened %lu, most %lu of %lu bytes\n", refused, accepted, opened, (unsigned long)fttcan_heap_told().most, bytes);
}

int main(int count, char **words) {
    FILE *file = count > 2 ? fopen(words[2], "rb") : NULL, *states = NULL;
    if (file == NULL)
        return 2;
    if (strcmp(words[1], "small") == 0) {
        play_small(file, count > 3 ? strtoul(words[3], NULL, 10) : 0);
        fclose(file);
        return ended("tables");
    }
    WANT(fttcan_heap_begin(arena, sizeof arena));
    if (count > 3) {
        states = fopen(words[3], strcmp(words[1], "front") == 0 ? "wb" : "rb");
        WANT(states != NULL);
    }
    if (!wrong)
        play(file, states, strcmp(words[1], "front") == 0 ? 1 : strcmp(words[1], "back") == 0 ? 2 : 0);
    WANT(fttcan_heap_told().held == 0 && fttcan_heap_told().refused == 0);
    printf("accepted %lu, opened %lu, saved %lu, most %lu bytes\n", accepted, opened, saves, (unsigned long)fttcan_heap_told().most);
    if (states != NULL)
        WANT(fclose(states) == 0);
    fclose(file);
    return ended("tables");
}
