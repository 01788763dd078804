/* One thread opens cycles, and never waits long; others plan changes apart, and settle them. A lock stands round the calls on
 * the master alone, and planning runs outside of it. In between no deadline is missed: a checker that knows nothing of the
 * master keeps the table itself, and compares each cycle. */
#include "support.h"
#include <pthread.h>

#ifndef CYCLES
#define CYCLES 30000
#endif
enum { PLANNERS = 3, MOST = 4200 };

static const fttcan_rules rules = {5000, 1500, 5, 40, FTTCAN_EDF, FTTCAN_PREFIX};
static pthread_mutex_t turn = PTHREAD_MUTEX_INITIALIZER;
static fttcan_master master;
static int is_over;
static unsigned long answers[5];

/* Removes or adds one message of its own, again and again. */
static void *plan(void *word) {
    const uint8_t own = *(const uint8_t *)word;
    int is_placed = 0, goes_on = 1;
    while (goes_on) {
        fttcan_snapshot apart = {0};
        fttcan_planned planned = {0};
        fttcan_verdict v = {0, 0, 0, 0, 0, 0, 0};
        fttcan_op op = {FTTCAN_ADD, {0, 0, 0, 0, 0, 8, 0}};
        uint64_t next = 0;
        op.kind = is_placed ? FTTCAN_REMOVE : FTTCAN_ADD;
        op.entry.slot = own;
        op.entry.period = op.entry.deadline = (uint16_t)(7 + own);
        pthread_mutex_lock(&turn);
        STATUS(FTTCAN_OK, fttcan_master_snapshot(&master, &apart));
        STATUS(FTTCAN_OK, fttcan_master_look(&master, own, &next));
        pthread_mutex_unlock(&turn);
        STATUS(FTTCAN_OK, fttcan_plan_apart(&apart, next + 400, &op, 1, &planned));
        pthread_mutex_lock(&turn);
        STATUS(FTTCAN_OK, fttcan_master_settle(&master, own, &planned, &v));
        answers[v.kind]++;
        if (v.kind == FTTCAN_ACCEPTED)
            is_placed = !is_placed;
        goes_on = !is_over;
        pthread_mutex_unlock(&turn);
    }
    return NULL;
}

static void *open_all(void *unused) {
    static fttcan_placed table[MOST];
    fttcan_state state = {0, {0, 0}};
    fttcan_size count = 0;
    unsigned cycle;
    (void)unused;
    for (cycle = 0; cycle < CYCLES; cycle++) {
        fttcan_order order;
        fttcan_plan plan = {{0, 0}, 0};
        pthread_mutex_lock(&turn);
        STATUS(FTTCAN_OK, fttcan_master_table(&master, table, MOST, &count));
        STATUS(FTTCAN_OK, fttcan_master_open(&master, &order));
        pthread_mutex_unlock(&turn);
        STATUS(FTTCAN_OK, fttcan_open(&rules, table, count, &state, &plan));
        WANT(order.cycle == cycle && same_mask(order.flags, plan.flags));
    }
    pthread_mutex_lock(&turn);
    is_over = 1;
    pthread_mutex_unlock(&turn);
    return NULL;
}

int main(void) {
    static const uint8_t names[PLANNERS] = {1, 2, 3};
    pthread_t opener, planners[PLANNERS];
    unsigned place;
    STATUS(FTTCAN_OK, fttcan_master_new(&master, &rules));
    for (place = 0; place < PLANNERS; place++)
        if (pthread_create(&planners[place], NULL, plan, (void *)&names[place]))
            return 2;
    if (pthread_create(&opener, NULL, open_all, NULL))
        return 2;
    pthread_join(opener, NULL);
    for (place = 0; place < PLANNERS; place++)
        pthread_join(planners[place], NULL);
    printf("%lu accepted, %lu passed, %lu others\n", answers[FTTCAN_ACCEPTED], answers[FTTCAN_PASSED],
           answers[FTTCAN_MALFORMED] + answers[FTTCAN_MISSED] + answers[FTTCAN_HORIZON]);
    WANT(answers[FTTCAN_ACCEPTED] > 0);
    fttcan_master_free(&master);
    return ended("threads");
}
