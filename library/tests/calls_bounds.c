/* fttcan_async_bound, where it is answered, and for each status that it can answer. The values are from the formula of
 * docs/ASYNC.md, as tools/check-bounds works it out. */
#include "support.h"

static const fttcan_layout layout = {1000, 30, 135, 40};

/* The reserve of docs/LIBRARY.md: 55 + 10n bit times of a frame, and 28 of the recovery, for each disturbance. */
static void of_reserves(void) {
    static const uint32_t cost[9] = {83, 93, 103, 113, 123, 133, 143, 153, 163};
    uint32_t bits = 7, errors = 7;
    uint8_t bytes;
    for (bytes = 0; bytes < 9; bytes++) {
        STATUS(FTTCAN_OK, fttcan_reserve(1, bytes, &bits));
        WANT(bits == cost[bytes]);
        STATUS(FTTCAN_OK, fttcan_reserve(0, bytes, &bits));
        WANT(bits == 0);
        STATUS(FTTCAN_OK, fttcan_reserve(65535, bytes, &bits));
        WANT(bits == 65535 * cost[bytes]);
        STATUS(FTTCAN_OK, fttcan_errors_within(bits, bytes, &errors));
        WANT(errors == 65535);
        STATUS(FTTCAN_OK, fttcan_errors_within(bits - 1, bytes, &errors));
        WANT(errors == 65534);
        STATUS(FTTCAN_OK, fttcan_errors_within(cost[bytes] - 1, bytes, &errors));
        WANT(errors == 0);
        STATUS(FTTCAN_OK, fttcan_errors_within(UINT32_MAX, bytes, &errors));
        WANT(errors == UINT32_MAX / cost[bytes]);
    }
    bits = errors = 7;
    STATUS(FTTCAN_ARGUMENT, fttcan_reserve(1, 9, &bits));
    STATUS(FTTCAN_ARGUMENT, fttcan_reserve(0, 255, &bits));
    STATUS(FTTCAN_ARGUMENT, fttcan_errors_within(500, 9, &errors));
    WANT(bits == 7 && errors == 7);
}

/* The bound of a stream, and 0 where it has none. */
static uint64_t bound(const fttcan_layout *of, const fttcan_stream *streams, fttcan_size count, fttcan_size which) {
    uint64_t start = 0;
    const uint32_t status = fttcan_async_bound(of, streams, count, which, &start);
    if (status == FTTCAN_NO)
        WANT(start == 0);
    else
        STATUS(FTTCAN_OK, status);
    return start;
}

/* One stream: the frame before, and 435 bit times in a row, of which one is usable at least. */
static void of_one(void) {
    fttcan_stream one = {10000, 1, 0x200, 8};
    WANT(bound(&layout, &one, 1, 0) == 569);
    one.gap = 569;
    WANT(bound(&layout, &one, 1, 0) == 569);
    one.gap = 568;
    WANT(bound(&layout, &one, 1, 0) == 0);
    one.gap = 4294967295;
    one.bytes = 0;
    WANT(bound(&layout, &one, 1, 0) == 409);
    one.burst = 1024;
    one.bytes = 8;
    one.id = 0x7EF;
    WANT(bound(&layout, &one, 1, 0) == 244570);
}

/* Lesser identifiers, greater ones, bursts, windows that just hold a frame, and 96 slots. */
static void of_some(void) {
    static const fttcan_stream three[] = {{3000, 1, 0x200, 8}, {3542, 1, 0x201, 0}, {1458, 1, 0x202, 8}};
    static const fttcan_stream bursts[] = {{2000, 4, 0x300, 8}, {50000, 1, 0x301, 8}};
    static const fttcan_stream single = {10000, 1, 0x7EF, 8};
    static const fttcan_layout narrow = {729, 30, 270, 40}, wide = {1000, 30, 135, 96};
    static const fttcan_layout just = {435, 30, 135, 40}, never = {434, 30, 135, 40};
    WANT(bound(&layout, three, 3, 0) == 569 && bound(&layout, three, 3, 1) == 704 && bound(&layout, three, 3, 2) == 759);
    WANT(bound(&narrow, three, 3, 0) == 704 && bound(&narrow, three, 3, 1) == 839 && bound(&narrow, three, 3, 2) == 0);
    WANT(bound(&wide, three, 3, 0) == 704 && bound(&wide, three, 3, 1) == 839 && bound(&wide, three, 3, 2) == 894);
    WANT(bound(&layout, bursts, 2, 0) == 974 && bound(&layout, bursts, 2, 1) == 1109);
    WANT(bound(&just, &single, 1, 0) == 569 && bound(&never, &single, 1, 0) == 0);
}

/* The status of a call with one number of one stream changed. */
static uint32_t changed(uint64_t gap, uint32_t burst, uint16_t id, uint8_t bytes) {
    fttcan_stream streams[2] = {{9000, 1, 0x200, 8}, {9000, 1, 0x201, 8}};
    uint64_t start = 9;
    uint32_t first, second;
    streams[1] = (fttcan_stream){gap, burst, id, bytes};
    first = fttcan_async_bound(&layout, streams, 2, 0, &start);
    WANT(first == FTTCAN_OK || start == 9);
    start = 9;
    streams[0] = streams[1];
    second = fttcan_async_bound(&layout, streams, 1, 0, &start);
    WANT(second == FTTCAN_OK || start == 9);
    WANT(first == FTTCAN_ARGUMENT || second != FTTCAN_ARGUMENT);
    return second;
}

static void of_ranges(void) {
    static fttcan_stream many[2049];
    fttcan_layout bad = layout;
    uint64_t start = 9;
    fttcan_size place;
    STATUS(FTTCAN_OK, changed(9000, 1, 0x200, 8));
    STATUS(FTTCAN_ARGUMENT, changed(0, 1, 0x200, 8));
    STATUS(FTTCAN_ARGUMENT, changed((uint64_t)1 << 32, 1, 0x200, 8));
    STATUS(FTTCAN_ARGUMENT, changed(9000, 0, 0x200, 8));
    STATUS(FTTCAN_ARGUMENT, changed(9000, 1025, 0x200, 8));
    STATUS(FTTCAN_ARGUMENT, changed(9000, 1, 0x1FF, 8));
    STATUS(FTTCAN_ARGUMENT, changed(9000, 1, 0x7F0, 8));
    STATUS(FTTCAN_ARGUMENT, changed(9000, 1, 0x200, 9));
    STATUS(FTTCAN_NO, changed(1, 1, 0x200, 8));
    for (place = 0; place < 2049; place++)
        many[place] = (fttcan_stream){9000, 1, 0x300, 8};
    WANT(bound(&layout, many, 2048, 2047) == 569);
    STATUS(FTTCAN_ARGUMENT, fttcan_async_bound(&layout, many, 2049, 0, &start));
    STATUS(FTTCAN_ARGUMENT, fttcan_async_bound(&layout, many, 1, 1, &start));
    STATUS(FTTCAN_ARGUMENT, fttcan_async_bound(&layout, many, 0, 0, &start));
    bad.slots = 41;
    STATUS(FTTCAN_ARGUMENT, fttcan_async_bound(&bad, many, 1, 0, &start));
    bad = layout;
    bad.cycle = 399;
    STATUS(FTTCAN_ARGUMENT, fttcan_async_bound(&bad, many, 1, 0, &start));
    bad = layout;
    bad.window = 836;
    STATUS(FTTCAN_ARGUMENT, fttcan_async_bound(&bad, many, 1, 0, &start));
    WANT(start == 9);
}

int main(void) {
    of_reserves();
    of_one();
    of_some();
    of_ranges();
    return ended("calls_bounds");
}
