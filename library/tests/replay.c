/* Plays a steps file, and writes the rows of its log that the master makes: submit, plan, look, open, end, and the frames
 * of the triggers.
 *
 *     replay MODE CYCLE NODES SLOTS WINDOW POLICY FILL HORIZON AT <STEPS
 *
 * The modes differ in what answers: "master"; "apart", where each change is planned from a snapshot and settled; "saved",
 * where the master is saved and restored before each call; "handed", where a standby takes over after AT opened cycles;
 * "stateless", where table and state are kept here, and no row `plan` is written. Behind an accepted change and at the end
 * the mode "certified" has the plan's text checked against the table. */
#include "support.h"

enum { MOST_PLACED = 4200, MOST_TRAIL = 100001 };

static const char *mode;
static unsigned long cycle_length;
static fttcan_rules rules;
static unsigned long at_opened;

static fttcan_master master;
static fttcan_standby standby;
static fttcan_placed tables[2][MOST_PLACED];
static fttcan_size placed_count;
static int current;
static fttcan_state state;
static unsigned long opened;
static int has_changed;

static int is(const char *name) { return strcmp(mode, name) == 0; }

static void put_mask(fttcan_mask mask) {
    if (mask.low >> 40 || mask.high)
        printf("%08" PRIx64 "%016" PRIx64, mask.high, mask.low);
    else
        printf("%010" PRIx64, mask.low);
}

static uint64_t next_cycle(void) {
    uint64_t next = state.cycle;
    if (!is("stateless"))
        STATUS(FTTCAN_OK, fttcan_master_next(&master, &next));
    return next;
}

/* Saves the master, lets it go, and restores it. What is restored says the same. */
static void save_and_restore(void) {
    static uint8_t bytes[1 << 18];
    static fttcan_placed before[MOST_PLACED], after[MOST_PLACED];
    fttcan_size len = 0, count = 0, count_after = 0, place;
    fttcan_mask flags = {0, 0}, flags_after = {0, 0};
    uint64_t next = next_cycle();
    STATUS(FTTCAN_OK, fttcan_master_table(&master, before, MOST_PLACED, &count));
    STATUS(FTTCAN_OK, fttcan_master_planned(&master, &flags));
    STATUS(FTTCAN_OK, fttcan_master_save(&master, bytes, sizeof bytes, &len));
    fttcan_master_free(&master);
    STATUS(FTTCAN_OK, fttcan_master_restore(&master, bytes, len));
    WANT(next_cycle() == next);
    STATUS(FTTCAN_OK, fttcan_master_planned(&master, &flags_after));
    WANT(same_mask(flags, flags_after));
    STATUS(FTTCAN_OK, fttcan_master_table(&master, after, MOST_PLACED, &count_after));
    WANT(count == count_after);
    for (place = 0; place < count && place < count_after; place++)
        WANT(same_placed(&before[place], &after[place]));
}

/* The plan from the next cycle on keeps the table. */
static void certify(void) {
    static fttcan_placed table[MOST_PLACED];
    fttcan_size len = 0, count = 0;
    uint8_t *text, none = 0;
    fttcan_breach breach = {0, 0, 0, 0};
    STATUS(FTTCAN_OK, fttcan_master_table(&master, table, MOST_PLACED, &count));
    STATUS(FTTCAN_ROOM, fttcan_master_certificate(&master, &none, 0, &len));
    text = malloc(len);
    if (text == NULL)
        exit(2);
    STATUS(FTTCAN_OK, fttcan_master_certificate(&master, text, len, &len));
    STATUS(FTTCAN_OK, fttcan_check(table, count, rules.window, text, len, &breach));
    text[0] = 'F';
    STATUS(FTTCAN_TEXT, fttcan_check(table, count, rules.window, text, len, &breach));
    WANT(breach.first == 1);
    free(text);
}

static void put_verdict(uint8_t caller, uint64_t from, const fttcan_verdict *verdict) {
    printf("submit,%u,%" PRIu64 ",%s", caller, from, fttcan_verdict_name(verdict->kind));
    switch (verdict->kind) {
    case FTTCAN_MALFORMED:
        printf(",%u,%u", verdict->op, verdict->why);
        if (verdict->known)
            printf(",%" PRIu64, verdict->first);
        break;
    case FTTCAN_MISSED: printf(",%u,%" PRIu64 ",%" PRIu64, verdict->slot, verdict->first, verdict->second); break;
    default: printf(",%" PRIu64 ",%" PRIu64, verdict->first, verdict->second); break;
    }
    putchar('\n');
}

static void put_trail(uint64_t from, const fttcan_verdict *verdict) {
    static fttcan_mask trail[MOST_TRAIL];
    fttcan_size count = 77, place;
    STATUS(FTTCAN_OK, fttcan_master_trail(&master, trail, MOST_TRAIL, &count));
    WANT(count == (verdict->kind == FTTCAN_MISSED ? verdict->second - from + 1 : 0));
    for (place = 0; place < count; place++) {
        printf("plan,%" PRIu64 ",", from + place);
        put_mask(trail[place]);
        putchar('\n');
    }
}

/* After so many opened cycles the master is dropped, and the standby goes on. */
static void hand_over(void) {
    if (!is("handed") || opened != at_opened || standby.at == NULL)
        return;
    fttcan_master_free(&master);
    STATUS(FTTCAN_OK, fttcan_standby_take_over(&standby, &master));
    WANT(standby.at == NULL);
}

static void answer(uint8_t caller, uint64_t start, const fttcan_op *ops, fttcan_size count, fttcan_verdict *verdict) {
    if (is("stateless")) {
        fttcan_size changed = placed_count;
        STATUS(FTTCAN_OK, fttcan_decide(&rules, tables[current], placed_count, &state, start, ops, count, verdict,
                                        tables[!current], MOST_PLACED, &changed));
        if (verdict->kind == FTTCAN_ACCEPTED) {
            current = !current;
            placed_count = changed;
        }
    } else if (is("apart")) {
        fttcan_snapshot snapshot = {0};
        fttcan_planned planned = {0};
        fttcan_verdict apart = {0, 0, 0, 0, 0, 0, 0};
        STATUS(FTTCAN_OK, fttcan_master_snapshot(&master, &snapshot));
        STATUS(FTTCAN_OK, fttcan_plan_apart(&snapshot, start, ops, count, &planned));
        STATUS(FTTCAN_OK, fttcan_planned_verdict(&planned, &apart));
        STATUS(FTTCAN_OK, fttcan_master_settle(&master, caller, &planned, verdict));
        WANT(same_verdict(&apart, verdict));
        WANT(snapshot.at == NULL && planned.at == NULL);
    } else {
        STATUS(FTTCAN_OK, fttcan_master_submit(&master, caller, start, ops, count, verdict));
    }
}

static void submit(uint8_t caller, uint64_t start, const fttcan_op *ops, fttcan_size count) {
    fttcan_verdict verdict = {0, 0, 0, 0, 0, 0, 0};
    uint64_t from;
    hand_over();
    from = next_cycle();
    answer(caller, start, ops, count, &verdict);
    put_verdict(caller, from, &verdict);
    if (!is("stateless"))
        put_trail(from, &verdict);
    if (verdict.kind != FTTCAN_ACCEPTED)
        return;
    has_changed = 1;
    if (is("certified"))
        certify();
    if (is("handed") && standby.at != NULL) {
        fttcan_verdict own = {0, 0, 0, 0, 0, 0, 0};
        STATUS(FTTCAN_OK, fttcan_standby_change(&standby, caller, start, ops, count, &own));
        WANT(same_verdict(&own, &verdict));
    }
}

static void put_trigger(const fttcan_order *order) {
    fttcan_trigger trigger = {order->flags, order->cycle, order->window}, told = {{0, 0}, 0, 0};
    fttcan_frame frames[2];
    fttcan_size count = 0, place;
    uint64_t start = order->cycle * cycle_length;
    memset(frames, 0, sizeof frames);
    STATUS(FTTCAN_OK, fttcan_trigger_encode(rules.slots, &trigger, frames, 2, &count));
    WANT(count == (rules.slots == 40 ? 1 : 2));
    for (place = 0; place < count; place++) {
        uint32_t bits = 0;
        unsigned byte;
        STATUS(FTTCAN_OK, fttcan_wire_length(frames[place].id, frames[place].bytes, frames[place].len, &bits));
        printf("frame,%" PRIu64 ",%" PRIu32 ",%03x,", start, bits, frames[place].id);
        for (byte = 0; byte < frames[place].len; byte++)
            printf("%02x", frames[place].bytes[byte]);
        putchar('\n');
        start += bits;
    }
    STATUS(FTTCAN_OK, fttcan_trigger_decode(rules.slots, frames, count, &told));
    WANT(told.cycle == (order->cycle & 255) && told.window == order->window && same_mask(told.flags, order->flags));
    if (is("handed") && standby.at != NULL) {
        fttcan_follow fault;
        memset(&fault, 0, sizeof fault);
        STATUS(FTTCAN_OK, fttcan_standby_trigger(&standby, frames, count, &fault));
    }
}

static void open_cycle(void) {
    fttcan_order order = {0, {0, 0}, 0, 0};
    hand_over();
    if (is("stateless")) {
        fttcan_plan plan = {{0, 0}, 0};
        order.cycle = state.cycle;
        STATUS(FTTCAN_OK, fttcan_open(&rules, tables[current], placed_count, &state, &plan));
        order.flags = plan.flags;
        order.window = plan.window;
        order.learned = (uint8_t)has_changed;
    } else {
        fttcan_mask planned = {0, 0};
        STATUS(FTTCAN_OK, fttcan_master_planned(&master, &planned));
        STATUS(FTTCAN_OK, fttcan_master_open(&master, &order));
        WANT(same_mask(planned, order.flags));
    }
    WANT(order.learned == has_changed);
    WANT(order.cycle == opened);
    has_changed = 0;
    opened++;
    printf("open,%" PRIu64 ",", order.cycle);
    put_mask(order.flags);
    printf(",%" PRIu32 "\n", order.window);
    put_trigger(&order);
}

/* The numbers of a row from a field on. */
static fttcan_size numbers(char **fields, fttcan_size count, fttcan_size from, uint64_t *room) {
    fttcan_size place;
    for (place = from; place < count; place++)
        room[place - from] = strtoull(fields[place], NULL, 10);
    return count > from ? count - from : 0;
}

/* An operation from its word and its numbers, the slot first. */
static fttcan_op op_of(const char *word, const uint64_t *n) {
    fttcan_op op;
    memset(&op, 0, sizeof op);
    op.kind = word[0] == 'a' ? FTTCAN_ADD : word[0] == 'r' ? FTTCAN_REMOVE : FTTCAN_CHANGE;
    op.entry.slot = (uint8_t)n[0];
    if (op.kind != FTTCAN_REMOVE) {
        op.entry.node = (uint8_t)n[1];
        op.entry.length = (uint8_t)n[2];
        op.entry.phase = (uint16_t)n[3];
        op.entry.period = (uint16_t)n[4];
        op.entry.deadline = (uint16_t)n[5];
        op.entry.priority = (uint8_t)n[6];
    }
    return op;
}

static fttcan_size split(char *line, char **fields) {
    fttcan_size count = 0;
    line[strcspn(line, "\r\n")] = 0;
    for (;;) {
        while (*line == ' ')
            line++;
        fields[count++] = line;
        line += strcspn(line, ",");
        if (!*line || count == 12)
            return count;
        *line++ = 0;
    }
}

static void play(FILE *steps) {
    char line[512], *fields[12];
    static fttcan_op ops[1024];
    fttcan_size many = 0, count;
    uint64_t n[12] = {0}, start = 0;
    uint8_t caller = 0;
    while (fgets(line, sizeof line, steps)) {
        count = split(line, fields);
        if (count == 1 && !*fields[0])
            continue;
        if (strcmp(fields[0], "and") == 0) {
            numbers(fields, count, 2, n);
            ops[many++] = op_of(fields[1], n);
            continue;
        }
        if (many)
            submit(caller, start, ops, many);
        many = 0;
        if (is("saved"))
            save_and_restore();
        numbers(fields, count, 1, n);
        if (strcmp(fields[0], "cycle") == 0) {
            for (; n[0]; n[0]--) {
                open_cycle();
                if (is("saved"))
                    save_and_restore();
            }
        } else if (strcmp(fields[0], "look") == 0) {
            uint64_t next = state.cycle;
            if (!is("stateless"))
                STATUS(FTTCAN_OK, fttcan_master_look(&master, (uint8_t)n[0], &next));
            printf("look,%" PRIu64 ",%" PRIu64 "\n", n[0], next);
        } else {
            caller = (uint8_t)n[0];
            start = n[1];
            ops[many++] = op_of(fields[0], n + 2);
        }
    }
    if (many)
        submit(caller, start, ops, many);
}

int main(int count, char **words) {
    if (count != 10)
        return 2;
    mode = words[1];
    cycle_length = strtoul(words[2], NULL, 10);
    rules.nodes = (uint8_t)atoi(words[3]);
    rules.slots = (uint8_t)atoi(words[4]);
    rules.window = (uint32_t)atoi(words[5]);
    rules.policy = (uint8_t)atoi(words[6]);
    rules.fill = (uint8_t)atoi(words[7]);
    rules.horizon = strtoull(words[8], NULL, 10);
    at_opened = strtoul(words[9], NULL, 10);
    STATUS(FTTCAN_OK, fttcan_master_new(&master, &rules));
    if (is("handed"))
        STATUS(FTTCAN_OK, fttcan_standby_new(&standby, &rules));
    play(stdin);
    hand_over();
    if (is("certified"))
        certify();
    printf("end,%" PRIu64 "\n", next_cycle());
    fttcan_standby_free(&standby);
    fttcan_master_free(&master);
    return ended("replay");
}
