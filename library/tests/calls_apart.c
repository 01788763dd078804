/* The calls that plan a change apart: each call once where it is answered, and once for each status that it can answer but FTTCAN_MEMORY: refuse.c has that. */
#include "support.h"

static const fttcan_rules rules = {10000, 540, 5, 40, FTTCAN_RM, FTTCAN_PREFIX};
/* The entry of the first change: 8 bytes of node 1 in slot 5, in every second cycle. */
static const fttcan_op first = {FTTCAN_ADD, {0, 2, 1, 5, 1, 8, 0}};

static void is_accepted(const fttcan_verdict *verdict, uint64_t from, uint64_t length) {
    WANT(verdict->kind == FTTCAN_ACCEPTED && verdict->first == from && verdict->second == length);
}

static void of_apart(void) {
    fttcan_master m = {0};
    fttcan_snapshot apart = {0}, second = {0};
    fttcan_planned planned = {0}, later = {0};
    fttcan_verdict v = {0, 0, 0, 0, 0, 0, 0};
    fttcan_order order;
    fttcan_op op = first;
    STATUS(FTTCAN_OK, fttcan_master_new(&m, &rules));
    STATUS(FTTCAN_OK, fttcan_master_snapshot(&m, &apart));
    STATUS(FTTCAN_OPEN, fttcan_master_snapshot(&m, &apart));
    op.kind = 7;
    STATUS(FTTCAN_ARGUMENT, fttcan_plan_apart(&apart, 4, &op, 1, &planned));
    WANT(apart.at != NULL && planned.at == NULL);
    STATUS(FTTCAN_OK, fttcan_plan_apart(&apart, 4, &first, 1, &planned));
    WANT(apart.at == NULL && planned.at != NULL);
    STATUS(FTTCAN_OK, fttcan_planned_verdict(&planned, &v));
    is_accepted(&v, 4, 2);
    /* Three cycles are opened while it is planned. */
    STATUS(FTTCAN_OK, fttcan_master_snapshot(&m, &second));
    STATUS(FTTCAN_OPEN, fttcan_plan_apart(&second, 4, &first, 1, &planned));
    STATUS(FTTCAN_OK, fttcan_plan_apart(&second, 4, &first, 1, &later));
    STATUS(FTTCAN_OK, fttcan_master_open(&m, &order));
    STATUS(FTTCAN_OK, fttcan_master_open(&m, &order));
    STATUS(FTTCAN_OK, fttcan_master_open(&m, &order));
    STATUS(FTTCAN_ARGUMENT, fttcan_master_settle(&m, 9, &planned, &v));
    WANT(planned.at != NULL);
    v.kind = 99;
    STATUS(FTTCAN_OK, fttcan_master_settle(&m, 2, &planned, &v));
    WANT(planned.at == NULL);
    is_accepted(&v, 4, 2);
    /* The table is another one now: the same change is planned anew, and refused. */
    STATUS(FTTCAN_OK, fttcan_master_settle(&m, 2, &later, &v));
    WANT(v.kind == FTTCAN_MALFORMED && v.why == 10);
    fttcan_master_free(&m);
    fttcan_planned_free(&later);
}

/* A plan that was made for one master settles with another one: it is planned anew where the two differ. */
static void of_another(void) {
    fttcan_master m = {0}, other = {0};
    fttcan_snapshot apart = {0};
    fttcan_planned planned = {0};
    fttcan_verdict v = {0, 0, 0, 0, 0, 0, 0};
    STATUS(FTTCAN_OK, fttcan_master_new(&m, &rules));
    STATUS(FTTCAN_OK, fttcan_master_new(&other, &rules));
    STATUS(FTTCAN_OK, fttcan_master_submit(&other, 1, 0, &first, 1, &v));
    STATUS(FTTCAN_OK, fttcan_master_snapshot(&m, &apart));
    STATUS(FTTCAN_OK, fttcan_plan_apart(&apart, 0, &first, 1, &planned));
    fttcan_master_free(&m);
    STATUS(FTTCAN_OK, fttcan_master_settle(&other, 1, &planned, &v));
    WANT(v.kind == FTTCAN_MALFORMED && v.why == 10);
    fttcan_master_free(&other);
}

/* What each call of a change that is planned apart answers where a handle holds nothing, or something else. Then all is as
 * before. A full handle comes first, then an empty one, and then the other arguments. */
static void of_refusals(void) {
    fttcan_master m = {0}, empty = {0};
    fttcan_snapshot apart = {0}, none = {0};
    fttcan_planned planned = {0}, unplanned = {0};
    fttcan_verdict v = {9, 9, 9, 9, 9, 9, 9};
    fttcan_op odd = first;
    void *at;
    odd.kind = 7;
    STATUS(FTTCAN_OK, fttcan_master_new(&m, &rules));
    STATUS(FTTCAN_OK, fttcan_master_snapshot(&m, &apart));
    STATUS(FTTCAN_OK, fttcan_plan_apart(&apart, 4, &first, 1, &planned));
    at = planned.at;
    STATUS(FTTCAN_CLOSED, fttcan_master_settle(&empty, 1, &planned, &v));
    STATUS(FTTCAN_CLOSED, fttcan_master_settle(&empty, 9, &planned, &v));
    STATUS(FTTCAN_CLOSED, fttcan_master_settle(&m, 1, &unplanned, &v));
    STATUS(FTTCAN_CLOSED, fttcan_master_settle(&m, 0, &unplanned, &v));
    STATUS(FTTCAN_CLOSED, fttcan_master_settle(&empty, 1, &unplanned, &v));
    STATUS(FTTCAN_ARGUMENT, fttcan_master_settle(&m, 0, &planned, &v));
    STATUS(FTTCAN_ARGUMENT, fttcan_master_settle(&m, 9, &planned, &v));
    /* What a handle of another kind holds is no plan, and no master. */
    STATUS(FTTCAN_OK, fttcan_master_new(&empty, &rules));
    STATUS(FTTCAN_CLOSED, fttcan_master_settle(&m, 1, (fttcan_planned *)&empty, &v));
    STATUS(FTTCAN_CLOSED, fttcan_master_settle((fttcan_master *)&planned, 1, (fttcan_planned *)&empty, &v));
    WANT(empty.at != NULL && planned.at == at && m.at != NULL && unplanned.at == NULL);
    WANT(v.first == 9 && v.second == 9 && v.kind == 9 && v.op == 9 && v.why == 9 && v.slot == 9 && v.known == 9);
    fttcan_master_free(&empty);
    STATUS(FTTCAN_CLOSED, fttcan_master_snapshot(&empty, &none));
    WANT(none.at == NULL);
    STATUS(FTTCAN_OK, fttcan_master_snapshot(&m, &apart));
    STATUS(FTTCAN_OPEN, fttcan_master_snapshot(&empty, &apart));
    STATUS(FTTCAN_CLOSED, fttcan_plan_apart(&none, 4, &odd, 1, &unplanned));
    STATUS(FTTCAN_OPEN, fttcan_plan_apart(&none, 4, &odd, 1, &planned));
    STATUS(FTTCAN_OPEN, fttcan_plan_apart(&apart, 4, &odd, 1, &planned));
    STATUS(FTTCAN_ARGUMENT, fttcan_plan_apart(&apart, 4, &odd, 1, &unplanned));
    STATUS(FTTCAN_CLOSED, fttcan_plan_apart((fttcan_snapshot *)&m, 4, &odd, 1, &unplanned));
    WANT(apart.at != NULL && unplanned.at == NULL && planned.at == at && m.at != NULL);
    STATUS(FTTCAN_CLOSED, fttcan_planned_verdict(&unplanned, &v));
    STATUS(FTTCAN_CLOSED, fttcan_planned_verdict((fttcan_planned *)&m, &v));
    WANT(v.kind == 9);
    fttcan_snapshot_free(&apart);
    fttcan_planned_free(&planned);
    fttcan_planned_free(&planned);
    fttcan_master_free(&m);
    fttcan_master_free(&m);
}

int main(void) {
    of_apart();
    of_another();
    of_refusals();
    return ended("calls_apart");
}
