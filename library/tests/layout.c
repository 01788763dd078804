/* The size, the alignment and the offsets of each struct, as numbers: those of the crate fttcan_c are tested against the
 * same ones. */
#include "support.h"

#define SIZE(type, size, align) \
    do { \
        WANT(sizeof(type) == (size)); \
        WANT(_Alignof(type) == (align)); \
    } while (0)
#define AT(type, field, offset) WANT(offsetof(type, field) == (offset))

static void numbers(void) {
    SIZE(fttcan_mask, 16, 8);
    AT(fttcan_mask, low, 0);
    AT(fttcan_mask, high, 8);
    SIZE(fttcan_frame, 12, 2);
    AT(fttcan_frame, id, 0);
    AT(fttcan_frame, len, 2);
    AT(fttcan_frame, bytes, 3);
    SIZE(fttcan_trigger, 32, 8);
    AT(fttcan_trigger, flags, 0);
    AT(fttcan_trigger, cycle, 16);
    AT(fttcan_trigger, window, 24);
    SIZE(fttcan_layout, 16, 4);
    AT(fttcan_layout, cycle, 0);
    AT(fttcan_layout, turnaround, 4);
    AT(fttcan_layout, window, 8);
    AT(fttcan_layout, slots, 12);
    SIZE(fttcan_stream, 16, 8);
    AT(fttcan_stream, gap, 0);
    AT(fttcan_stream, burst, 8);
    AT(fttcan_stream, id, 12);
    AT(fttcan_stream, bytes, 14);
}

static void table(void) {
    SIZE(fttcan_rules, 16, 8);
    AT(fttcan_rules, horizon, 0);
    AT(fttcan_rules, window, 8);
    AT(fttcan_rules, nodes, 12);
    AT(fttcan_rules, slots, 13);
    AT(fttcan_rules, policy, 14);
    AT(fttcan_rules, fill, 15);
    SIZE(fttcan_entry, 10, 2);
    AT(fttcan_entry, phase, 0);
    AT(fttcan_entry, period, 2);
    AT(fttcan_entry, deadline, 4);
    AT(fttcan_entry, slot, 6);
    AT(fttcan_entry, node, 7);
    AT(fttcan_entry, length, 8);
    AT(fttcan_entry, priority, 9);
    SIZE(fttcan_placed, 32, 8);
    AT(fttcan_placed, origin, 0);
    AT(fttcan_placed, end, 8);
    AT(fttcan_placed, entry, 16);
    AT(fttcan_placed, ended, 26);
    SIZE(fttcan_op, 12, 2);
    AT(fttcan_op, kind, 0);
    AT(fttcan_op, entry, 2);
    SIZE(fttcan_state, 24, 8);
    AT(fttcan_state, cycle, 0);
    AT(fttcan_state, pending, 8);
}

static void answers(void) {
    SIZE(fttcan_verdict, 24, 8);
    AT(fttcan_verdict, first, 0);
    AT(fttcan_verdict, second, 8);
    AT(fttcan_verdict, kind, 16);
    AT(fttcan_verdict, op, 17);
    AT(fttcan_verdict, why, 18);
    AT(fttcan_verdict, slot, 19);
    AT(fttcan_verdict, known, 20);
    SIZE(fttcan_plan, 24, 8);
    AT(fttcan_plan, flags, 0);
    AT(fttcan_plan, window, 16);
    SIZE(fttcan_order, 32, 8);
    AT(fttcan_order, cycle, 0);
    AT(fttcan_order, flags, 8);
    AT(fttcan_order, window, 24);
    AT(fttcan_order, learned, 28);
    SIZE(fttcan_breach, 24, 8);
    AT(fttcan_breach, first, 0);
    AT(fttcan_breach, second, 8);
    AT(fttcan_breach, kind, 16);
    AT(fttcan_breach, slot, 17);
    SIZE(fttcan_follow, 56, 8);
    AT(fttcan_follow, heard, 0);
    AT(fttcan_follow, planned, 16);
    AT(fttcan_follow, first, 32);
    AT(fttcan_follow, second, 40);
    AT(fttcan_follow, kind, 48);
}

static void nodes(void) {
    SIZE(fttcan_owner, 4, 2);
    AT(fttcan_owner, id, 0);
    AT(fttcan_owner, node, 2);
    SIZE(fttcan_settings, 24, 8);
    AT(fttcan_settings, room, 0);
    AT(fttcan_settings, entries, 8);
    AT(fttcan_settings, number, 16);
    AT(fttcan_settings, tolerance, 17);
    AT(fttcan_settings, silent, 18);
    SIZE(fttcan_offer, 8, 4);
    AT(fttcan_offer, until, 0);
    AT(fttcan_offer, id, 4);
    SIZE(fttcan_ticket, 24, 8);
    AT(fttcan_ticket, cycle, 0);
    AT(fttcan_ticket, number, 8);
    AT(fttcan_ticket, id, 16);
    SIZE(fttcan_loaded, 40, 8);
    AT(fttcan_loaded, ticket, 0);
    AT(fttcan_loaded, frame, 24);
    AT(fttcan_loaded, users, 36);
    SIZE(fttcan_due, 12, 4);
    AT(fttcan_due, start, 0);
    AT(fttcan_due, last, 4);
    AT(fttcan_due, loaded, 8);
    AT(fttcan_due, users, 9);
    SIZE(fttcan_told, 16, 8);
    AT(fttcan_told, start, 0);
    AT(fttcan_told, number, 8);
    AT(fttcan_told, count, 12);
    AT(fttcan_told, kind, 14);
    SIZE(fttcan_collected, 16, 4);
    AT(fttcan_collected, parts, 0);
    AT(fttcan_collected, wanted, 4);
    AT(fttcan_collected, last, 8);
    AT(fttcan_collected, number, 12);
    AT(fttcan_collected, begun, 13);
    AT(fttcan_collected, whole, 14);
}

int main(void) {
    numbers();
    table();
    answers();
    nodes();
    SIZE(fttcan_node, 8, 8);
    SIZE(fttcan_master, 8, 8);
    SIZE(fttcan_standby, 8, 8);
    SIZE(fttcan_snapshot, 8, 8);
    SIZE(fttcan_planned, 8, 8);
    WANT(sizeof(fttcan_size) == 8);
    return ended("layout");
}
