/* A saved state with each bit turned, and bytes at random: each is refused, or what is restored misses no deadline.
 *
 *     flips ENTRIES */
#include "support.h"

static fttcan_master made(unsigned entries) {
    static const uint16_t periods[] = {4, 5, 8, 10, 20, 40};
    const fttcan_rules rules = {1000, 2000, 5, 96, FTTCAN_EDF, FTTCAN_SKIP};
    fttcan_master m = {0};
    fttcan_order order;
    fttcan_verdict v = {0, 0, 0, 0, 0, 0, 0};
    unsigned n;
    STATUS(FTTCAN_OK, fttcan_master_new(&m, &rules));
    for (n = 0; n < entries; n++) {
        fttcan_op op = {FTTCAN_ADD, {0, 0, 0, 0, 0, 0, 0}};
        op.entry.period = op.entry.deadline = periods[n % 6];
        op.entry.slot = (uint8_t)n;
        op.entry.node = (uint8_t)(n % 5);
        op.entry.length = (uint8_t)(n % 9);
        STATUS(FTTCAN_OK, fttcan_master_submit(&m, 1, n, &op, 1, &v));
        STATUS(FTTCAN_OK, fttcan_master_open(&m, &order));
    }
    return m;
}

/* What bytes give: refused, or a master that opens cycles and saves itself as bytes that restore. */
static int is_master(const uint8_t *bytes, fttcan_size len) {
    static uint8_t again[1 << 16];
    fttcan_master m = {0}, other = {0};
    fttcan_order order = {0, {0, 0}, 0, 0};
    fttcan_size saved = 0;
    unsigned cycle;
    const uint32_t status = fttcan_master_restore(&m, bytes, len);
    if (status != FTTCAN_OK) {
        WANT(status == FTTCAN_TEXT && m.at == NULL);
        return 0;
    }
    STATUS(FTTCAN_OK, fttcan_master_save(&m, again, sizeof again, &saved));
    STATUS(FTTCAN_OK, fttcan_master_restore(&other, again, saved));
    for (cycle = 0; cycle < 50; cycle++) {
        const uint32_t opened = fttcan_master_open(&m, &order);
        /* A state may stand at the last cycle of all. */
        WANT(opened == FTTCAN_OK || opened == FTTCAN_STATE);
    }
    fttcan_master_free(&other);
    fttcan_master_free(&m);
    return 1;
}

int main(int count, char **words) {
    static uint8_t bytes[1 << 16];
    fttcan_master m = made(count > 1 ? (unsigned)atoi(words[1]) : 8);
    fttcan_size len = 0, bit, round, taken = 0;
    uint64_t seed = 88172645463325252u;
    STATUS(FTTCAN_OK, fttcan_master_save(&m, bytes, sizeof bytes, &len));
    fttcan_master_free(&m);
    WANT(is_master(bytes, len));
    for (bit = 0; bit < 8 * len && !wrong; bit++) {
        bytes[bit / 8] ^= (uint8_t)(1u << bit % 8);
        taken += (fttcan_size)is_master(bytes, len);
        bytes[bit / 8] ^= (uint8_t)(1u << bit % 8);
    }
    printf("%" PRIu64 " bytes: %" PRIu64 " of %" PRIu64 " turned bits give another state\n", len, taken, 8 * len);
    for (round = 0; round < 2000 && !wrong; round++) {
        static uint8_t other[1 << 16];
        fttcan_size place, spoiled = 1 + round % 4;
        memcpy(other, bytes, len);
        for (place = 0; place < spoiled; place++) {
            seed ^= seed << 13;
            seed ^= seed >> 7;
            seed ^= seed << 17;
            other[seed % len] = (uint8_t)(seed >> 32);
        }
        is_master(other, len);
    }
    return ended("flips");
}
